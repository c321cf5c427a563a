# What the launcher and ./test know of the built program: the crates it stands on, where it is kept, and what it
# was built from. To be sourced, with $top the top of the repository.

kept=$top/out
program=$kept/wb

# the lines of crates.txt for the crates that the program stands on, lowest first, itself last
needed_lines() {
    awk '
        !/^#/ && /:/ { split($0, halves, ":"); split(halves[1], words, " "); below[words[1]] = halves[2]; line[words[1]] = $0 }
        function visit(name,    i, count, names) {
            if (!(name in below) || name in seen) return
            seen[name] = 1
            count = split(below[name], names, " ")
            for (i = 1; i <= count; i++) visit(names[i])
            print line[name]
        }
        END { visit("wb") }' "$top/crates.txt"
}

needed_crates() {
    needed_lines | sed 's/[ :].*//'
}

# what a crate stands on, of the repository and of the toolchain
below() {
    awk -v name="$1" '!/^#/ { split($0, halves, ":"); split(halves[1], words, " "); if (words[1] == name) print halves[2] }' "$top/crates.txt"
}

# the folders of sources, from the top
source_folders() {
    local crate part
    for crate in $(needed_crates); do
        for part in src specs proofs; do
            [ ! -d "$top/crates/$crate/$part" ] || echo "crates/$crate/$part"
        done
    done
}

# one hash of all that the program is built from: each file by its name and content, and its crates' lines
digest_of_sources() {
    (
        cd "$top" || exit 1
        needed_lines
        # shellcheck disable=SC2046 # names of crates have no spaces
        find $(source_folders) ! -type d -print0 | LC_ALL=C sort -z | xargs -0 sha256sum
    ) | sha256sum | cut -d ' ' -f 1
}

# one line that names the toolchain; none where there is no command rt
toolchain() {
    local rt identity
    rt=$(command -v rt) || return 0
    identity=$(dirname -- "$(dirname -- "$(readlink -f -- "$rt")")")/KIT-ID
    if [ -r "$identity" ]; then head -n 1 "$identity"; else rt version; fi
}

# what the kept program was built from: its sources' digest, and then the toolchain
read_record() {
    was_digest='' was_toolchain=''
    [ -x "$program" ] && [ -r "$kept/built" ] && { read -r was_digest; read -r was_toolchain; } <"$kept/built"
}

# whether the kept program is the one of these sources and this toolchain; without a toolchain, of these sources
is_current() {
    read_record && [ "$was_digest" = "$1" ] && { [ -z "$2" ] || [ "$was_toolchain" = "$2" ]; }
}

# who has the lock $kept/lock, which its owner has open as 9: one start of ./wb that builds, or ./test
lock_owner() {
    local owner=''
    # whoever has just taken the lock writes next who it is
    for _ in 1 2 3 4 5 6 7 8 9 10; do
        owner=$(cat "$kept/lock")
        [ -z "$owner" ] || break
        sleep 0.1
    done
    echo "${owner:-another start}"
}

give_lock_back() {
    : >"$kept/lock"
    exec 9>&-
}

# Notes the moment from which the sources must not change until the program is kept. To be called before the digest
# is taken.
begin_build() {
    touch "$kept/started"
}

# whether a source was changed since: then the program may be of what stands there or of what stood there
has_changed_since() {
    # shellcheck disable=SC2046 # names of crates have no spaces
    [ -n "$(cd "$top" && find crates.txt $(source_folders) -newercm "$kept/started" | head -n 1)" ]
}

# keeps a built program, with what it was built from: its file, the digest and the toolchain. The record is written
# last, so that what an interrupt leaves counts as not built.
keep_program() {
    rm -f "$kept/built"
    cp "$1" "$program.new" && mv -f "$program.new" "$program" &&
        printf '%s\n' "$2" "$3" >"$kept/built.new" && mv -f "$kept/built.new" "$kept/built"
}

# the Python that has pytest: Debian's, or the first one of PATH
python_of_tests() {
    local python
    for python in /usr/bin/python3 python3; do
        if "$python" -c 'import pytest' 2>/dev/null; then
            echo "$python"
            return
        fi
    done
}
