#!/bin/bash
# The module in place of `wb host`, for the tests of that: WB_MODULE names it. It runs by Node, with this process's standard streams.
exec node "$(dirname -- "$(readlink -f -- "$0")")/run.mjs" "$WB_MODULE"
