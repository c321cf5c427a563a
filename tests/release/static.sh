#!/bin/bash
# Stands for tools/static: both are the program that STATIC names, or else the one that the stand-in for the toolchain made.
for made in "$1" "$2"; do cp "${STATIC:-out/wb}" "$made" && chmod 755 "$made"; done
