#!/bin/bash
# Stands for tools/library: an archive and a shared library that are texts, or the shared library of the folder that LIBRARY names.
mkdir -p "$2/include" "$2/lib/pkgconfig"
cp include/wb.h "$2/include/wb.h"
for name in lib/libwb.a lib/libwb.so.0 lib/pkgconfig/wb.pc; do echo "$name" >"$2/$name"; done
[ -z "${LIBRARY-}" ] || cp "$LIBRARY/lib/libwb.so.0" "$2/lib/libwb.so.0"
ln -sfn libwb.so.0 "$2/lib/libwb.so"
