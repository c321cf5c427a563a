# The build that is not proved: what ./wb serves by until the proof is done. To be sourced after program.bash, with
# ./wb's `say` and `fail`.

unproved=$kept/unproved/wb
unproved_module=$kept/unproved/libwb.bc

# whether the build that is not proved is of these sources and this toolchain
is_unproved_current() {
    local its_digest='' its_toolchain=''
    [ -x "$unproved" ] && { read -r its_digest; read -r its_toolchain; } 2>/dev/null <"$unproved.built" &&
        [ "$its_digest" = "$digest" ] && [ "$its_toolchain" = "$toolchain" ]
}

# waits for another start's lock, and tells the seconds on a terminal
wait_for_build() {
    local begun=$SECONDS
    until flock -w 1 8; do
        ! has_terminal || printf '\r\033[Kwb: waiting for it, %d s so far' "$((SECONDS - begun))" >&2
    done
    clear_line
}

# Builds it where that is due. Another start that does so is waited for.
build_unproved() {
    is_unproved_current && return 0
    if [ -z "$toolchain" ]; then
        say "the program has to be built first, and there is no command rt of the toolchain"
        return 1
    fi
    if ! { mkdir -p "$kept/unproved" && exec 8>>"$unproved.lock"; } 2>/dev/null; then
        say "the program has to be built first, and $kept can't be written"
        return 1
    fi
    if ! flock -n 8; then
        say "another start builds a program that is not proved yet: waiting for its end"
        wait_for_build
    fi
    if ! is_unproved_current; then
        say "building a program that is not proved yet, which takes a minute or so"
        rm -f "$unproved.built" "$unproved.fast"
        "$top/tools/unproved" "$unproved" 8>&- && printf '%s\n' "$digest" "$toolchain" >"$unproved.built"
    fi
    exec 8>&-
    is_unproved_current
}

# builds the LLVM module of the library that is not proved, if that is due
build_unproved_module() {
    local of
    of="$(sources_of_library)"
    [ "$(cat "$unproved_module.of" 2>/dev/null)" != "$of" ] || return 0
    say "building a library that is not proved, which takes two minutes or so"
    rm -f "$unproved_module.of"
    mkdir -p "$kept/unproved" && "$top/tools/unproved" --library "$unproved_module" && echo "$of" >"$unproved_module.of"
}

# makes the library, or the page, that is not proved, in a folder
make_unproved() {
    check_place "--try $1" "$2"
    [ "$1" = --library ] || check_page_needs
    build_unproved_module || exit 5
    case $1 in
        --library) "$top/tools/library" unproved "$2" "$unproved_module" ;;
        --page) "$top/web/build" unproved "$(readlink -f -- "$2")/page" "$unproved_module" && readlink -f -- "$2/page" ;;
    esac || exit 5
    say "NOT PROVED: what stands in $2 is of a build that no prover has seen"
}

# Optimises it, in the process group of the provers. If that fails, the session goes on with the slow one.
make_fast() {
    [ ! -e "$unproved.fast" ] && is_unproved_current || return 0
    "$top/tools/unproved" --fast "$unproved" >"$logs/unproved.log" 2>&1 9>&- &
    while kill -0 $! 2>/dev/null; do
        is_wanted || kill -TERM 0
        sleep 0.2
    done
    ! wait $! || : >"$unproved.fast"
}

# ends this start where it proves beside a session that has ended
end_with_owner() {
    [ -z "$owner" ] || kill -0 "$owner" 2>/dev/null || exit 0
}

# Proves beside the session whose process is $owner. Its words go to standard error.
prove_beside() {
    is_current "$digest" "$toolchain" || build_alone
    say "the program is proved: the next start has it"
}

# Serves by the build that is not proved, in the place of this process, with the proof beside it.
serve_unproved() {
    say "NOT PROVED YET: this host is of a build that is checked while it runs; the proof goes on beside it"
    nice -n 10 "$top/wb" --beside $$ </dev/null >/dev/null &
    exec "$unproved" "$@"
}
