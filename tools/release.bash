# Makes a release of what is proved. To be sourced after program.bash and page.bash, and after library.bash if there is a library, with ./wb's
# `say` and `fail`; $program is proved and kept when make_release is called.

has_library() {
    [ -d "$top/crates/wb_c" ]
}

# says what a release takes before anything is proved
check_release_needs() {
    "$top/tools/release" needs && "$top/web/build" needs || exit 5
}

# of what it was built: the version, the sources, the toolchain, the library's sources as it says them, and each crate that was proved
tell_built() {
    local crate
    tell_version
    ! has_library || echo "library $(sources_of_library)"
    for crate in $(needed_crates) $(! has_library || echo wb_c); do
        echo "crate $crate proved"
    done
}

make_release() {
    local room static status with=none
    if has_library; then
        build_library
        with=$library
    fi
    build_page
    room=$(mktemp -d) || fail "there is no room for a release"
    static=$room/wb
    "$top/tools/static" "$static" "$room/shared" && tell_built >"$room/built" &&
        "$top/tools/release" pack "$1" "$static" "$room/shared" "$with" "$page" "$modules" "$room/built"
    status=$?
    rm -rf "$room"
    [ "$status" = 0 ] || exit 5
}
