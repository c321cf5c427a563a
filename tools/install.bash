# Installs the proved program and wb-live for all users of a machine. To be sourced after program.bash, with ./wb's `say` and `fail`.

parts=$top/tools/installed

# says what is wrong with the folder of a word before anything is proved
check_place() {
    if [ -z "$2" ]; then
        say "$1 takes a folder, as /usr/local or \$HOME/.local"
        exit 2
    fi
    mkdir -p -- "$2" 2>/dev/null && [ -w "$2" ] || fail "$2 can't be written"
}

# one file, which replaces what stands there only when it is whole
put() {
    mkdir -p -- "$(dirname -- "$3")" && install -m "$1" -- "$2" "$3.new" && mv -f -- "$3.new" "$3" || fail "$3 can't be written"
    say "installed $3"
}

# the files of wb-live: modules of Python, the package that speaks to hosts, and its page
live_files() {
    cd "$top" && find wb-live wbhost.py python/wb live ! -type d ! -name '*.pyc' -print0
}

# The folder that wb-live runs from, in which the installed program stands for ./wb. It replaces what stands there only when it is
# whole.
put_live() {
    rm -rf -- "$1.new" && mkdir -p -- "$1.new" && (live_files | xargs -0 cp --parents -t "$1.new" --) &&
        install -m 755 "$parts/launcher" "$1.new/wb" && chmod -R u=rwX,go=rX -- "$1.new" &&
        rm -rf -- "$1" && mv -- "$1.new" "$1" || fail "$1 can't be written"
    say "installed $1"
}

install_below() {
    local place name
    place=$(readlink -f -- "$1")
    put 755 "$program" "$place/lib/wb/wb"
    put 644 "$parts/wb.1" "$place/share/man/man1/wb.1"
    put 644 "$parts/wb-live.1" "$place/share/man/man1/wb-live.1"
    put 644 "$parts/wb.bash" "$place/share/bash-completion/completions/wb"
    put 644 "$parts/wb.bash" "$place/share/bash-completion/completions/wb-live"
    put 644 "$parts/LICENCE" "$place/share/doc/wb/LICENCE"
    put 644 "$parts/THIRD-PARTY" "$place/share/doc/wb/THIRD-PARTY"
    tell_version >"$kept/version" && put 644 "$kept/version" "$place/share/doc/wb/BUILT"
    put_live "$place/share/wb"
    mkdir -p -- "$place/bin"
    for name in wb wb-live; do
        ln -sfn "../share/wb/$name" "$place/bin/$name" || fail "$place/bin/$name can't be written"
        say "installed $place/bin/$name"
    done
}
