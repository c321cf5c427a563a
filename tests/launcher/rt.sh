#!/bin/bash
# Stands for the toolchain's command: tells of functions as it does, notes each call and each end, and makes a program that prints its source.
name=$(basename "$PWD")
if [ "$1" = version ]; then cat "$(dirname "$0")/kit"; exit; fi
echo "$1 $name" >>"$CALLS"
echo "$2 $3" >>"$(dirname "$CALLS")/jobs"
echo "so far: 0 of 2 functions checked; the verdict comes last"
echo "checked $name::first, 1 of 2"
source=$(cat src/*)
sleep "${SLOW:-0}"
if [[ $source = *wrong* ]]; then echo "error: $name is wrong"; exit 1; fi
echo "checked $name::second, 2 of 2"
if [ "$1" = run ]; then
    mkdir -p out
    printf '#!/bin/sh\necho %s "$@"\nexit 4\n' "$source" >out/wb
    chmod +x out/wb
    # an edit that is made after the sources were read
    [ -z "${EDITS-}" ] || { sleep 0.2; echo late >src/main.rt; }
fi
[ "$1" != check ] || mkdir -p "out/rlib/$name.rlib"
echo "end $name" >>"$CALLS"
