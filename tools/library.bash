# Builds the library: the proved host for programs in C, and in languages that call C. To be sourced after program.bash and page.bash, with
# ./wb's `say` and `fail`; $program is proved and kept when build_library is called.

library=$kept/library

# what the library is made of: its sources, and its own files
digest_of_library() {
    sources_of_library | digest_of_files include tools/library web/building/version.py
}

# builds the library where that is due; the program is current
build_library() {
    local made crates
    made=$(digest_of_library)
    ! is_made "$library" "$made" || return 0
    mkdir -p "$kept" && exec 9>>"$kept/lock" || fail "$kept can't be written"
    flock 9
    # shellcheck disable=SC2034 # restore_libraries reads it
    crates=$(needed_crates | tr '\n' ' ')
    echo "another start, process $$," >"$kept/lock"
    rm -f "$library.made"
    restore_libraries
    say "proving and building the library, which takes a minute or two once the program is proved"
    mkdir -p "$library" && "$top/tools/library" build "$library" 9>&- || exit 5
    # where the package for Python finds it in a checkout
    mkdir -p "$kept/lib" && ln -sfn ../library/lib/libwb.so "$kept/lib/libwb.so"
    echo "$made" >"$library.made"
    give_lock_back
}

# lays the library below a folder, as /usr/local
put_library() {
    local place
    place=$(readlink -f -- "$1")
    put 644 "$library/include/wb.h" "$place/include/wb.h"
    put 644 "$library/lib/libwb.a" "$place/lib/libwb.a"
    put 755 "$library/lib/libwb.so.0" "$place/lib/libwb.so.0"
    put 644 "$library/lib/pkgconfig/wb.pc" "$place/lib/pkgconfig/wb.pc"
    ln -sfn libwb.so.0 "$place/lib/libwb.so" || fail "$place/lib/libwb.so can't be written"
    say "installed $place/lib/libwb.so"
}
