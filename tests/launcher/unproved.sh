#!/bin/bash
# Stands for tools/unproved: its program tells its source, and goes on until its input ends.
echo "unproved $*" | sed 's, /.*,,' >>"$CALLS"
sleep "${SLOW_BUILD:-0}"
[ -z "${BREAKS-}" ] || { echo "wb: the program is not built: a reason" >&2; exit 1; }
for file; do :; done
[ "$1" = --fast ] && word=fast || word=slow
printf '#!/bin/sh\necho %s %s "$@"\ncat >/dev/null\nexit 3\n' "$word" "$(cat "$(dirname "$0")"/../crates/wb/src/*)" >"$file.new"
chmod +x "$file.new" && mv -f "$file.new" "$file"
