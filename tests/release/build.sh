#!/bin/bash
# Stands for web/build: its modules are texts.
case $1 in
    needs) ;;
    module) mkdir -p "$2" && echo wide >"$2/wb.wasm" && echo any >"$2/wb-any.wasm" ;;
    folder) rm -rf "$2" && mkdir -p "$2" && cp "$3"/*.wasm "$2" && echo '<title>wb</title>' >"$2/index.html" ;;
esac
