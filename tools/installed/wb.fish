# Completions of the shell fish for wb and wb-live.

set -l first run check hex words host help
complete -c wb -n "not __fish_seen_subcommand_from $first" -f -a "$first"
complete -c wb -n "not __fish_seen_subcommand_from $first" -l version -d 'tell the version'
complete -c wb -l help -d 'tell the commands'
complete -c wb -n '__fish_seen_subcommand_from run' -l workers -x -a '1 2 4 8' -d 'threads that take a batch in'
complete -c wb -n '__fish_seen_subcommand_from hex words' -l keep-going -d 'turn a line with a fault into a comment'
complete -c wb -n '__fish_seen_subcommand_from host' -l tuning -x -d 'the constants of the timers: C1,C2,D1,D2'

complete -c wb-live -l record -r -F
complete -c wb-live -l replay -r -F
complete -c wb-live -l key -r -F
complete -c wb-live -l new-key -r -F
complete -c wb-live -l ca -r -F
complete -c wb-live -l password-file -r -F
complete -c wb-live -l broker -x
complete -c wb-live -l interface -x
complete -c wb-live -l listen -x
complete -c wb-live -l peer -x
complete -c wb-live -l ports -x
complete -c wb-live -l me -x
complete -c wb-live -l rate -x
complete -c wb-live -l session -x
complete -c wb-live -l page -x
complete -c wb-live -l web -x
complete -c wb-live -l guests -x
complete -c wb-live -l origin -x
complete -c wb-live -l cells -x
complete -c wb-live -l lose -x
complete -c wb-live -l delay -x
complete -c wb-live -l twice -x
complete -c wb-live -f -l help
complete -c wb-live -f -l lan
complete -c wb-live -f -l invite
complete -c wb-live -f -l no-web
complete -c wb-live -f -l terminal
complete -c wb-live -f -l no-terminal
complete -c wb-live -f -l open
complete -c wb-live -f -l tag
complete -c wb-live -f -l browser
complete -c wb-live -f -l forget
complete -c wb-live -f -l mix
complete -c wb-live -f -l teach
