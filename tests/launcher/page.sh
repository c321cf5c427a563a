#!/bin/bash
# Stands for web/build: makes a module of the program's text.
echo "page $1" >>"$CALLS"
case $1 in
    needs) [ -z "${LACKS-}" ] || { echo "wb: the page is not built: $LACKS"; exit 1; } >&2 ;;
    module) [ -z "${BREAKS-}" ] && mkdir -p "$2" && cp crates/wb/src/main.rt "$2/module" ;;
    folder) rm -rf "$2" && cp -R "$3" "$2" && cp web/member/* "$2" ;;
esac
