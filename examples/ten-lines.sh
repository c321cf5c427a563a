#!/bin/bash
# The smallest driver of `wb host`: member 1 draws, and what it sends is handed to member 2, which shows the page.
#
#     examples/ten-lines.sh PROGRAM
coproc host { "$1" host; }
exec 3<&"${host[0]}" 4>&"${host[1]}"

# writes a line, and prints its block without the line that closes it
tell() {
    echo "$1" >&4
    while IFS= read -r line <&3; do
        case $line in 'ok '* | 'refused '*) return ;; *) echo "$line" ;; esac
    done
}

tell 'board 1 100 1 42'
sent=$(tell 'say draw 1 1/1 1 0 line 0 0 4 0 *')
printf '%s\n' 'board 2 100 1 43' "datagram ${sent#send }" 'show 1 1 5 1' | "$1" host
