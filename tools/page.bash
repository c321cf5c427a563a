# Builds the page: the proved library as a module for browsers, in a folder that any web server can serve. To be sourced
# after program.bash, with ./wb's `say` and `fail`; $program is proved and kept when build_page is called.

page=$kept/page
modules=$kept/modules

# one hash of files, each by its name and content, and of what is read
digest_of_files() {
    (cd "$top" && { cat; find "$@" ! -type d ! -name '*.pyc' -print0 | LC_ALL=C sort -z | xargs -0 sha256sum; }) | sha256sum | cut -d ' ' -f 1
}

# what the library is made of: the program's sources, the toolchain, and the library's own crate
sources_of_library() {
    printf '%s\n' "$(digest_of_sources)" "$(toolchain)" "$(grep '^wb_c ' "$top/crates.txt")" |
        digest_of_files crates/wb_c/src crates/wb_c/specs crates/wb_c/proofs
}

# what the modules are made of: the library's sources and the build's own files
digest_of_modules() {
    sources_of_library | digest_of_files web/build web/building
}

# what the folder is made of: the modules and the page's files
digest_of_page() {
    digest_of_modules | digest_of_files web/member live/ui
}

# whether what stands in a folder is of a digest, as the file beside it says
is_made() {
    [ -d "$1" ] && [ "$(cat "$1.made" 2>/dev/null)" = "$2" ]
}

# says what the build takes before anything is proved
check_page_needs() {
    "$top/web/build" needs || exit 5
}

# makes the libraries again that the program is built over, where they were put away since
restore_libraries() {
    local crate
    for crate in $crates; do
        [ "$crate" = wb ] || [ -d "$top/crates/$crate/out/rlib/$crate.rlib" ] && continue
        (cd "$top/crates/wb" && rt run -- check </dev/null) >"$kept/page.log" 2>&1 9>&- || fail "the libraries are not built; the log is $kept/page.log"
        return
    done
}

build_modules() {
    local made
    made=$(digest_of_modules)
    ! is_made "$modules" "$made" || return 0
    say "building the modules for browsers, which takes some minutes once the program is proved"
    rm -f "$modules.made"
    restore_libraries
    "$top/web/build" module "$modules" 9>&- || exit 5
    echo "$made" >"$modules.made"
}

# builds the page where that is due; the program is current
build_page() {
    local made begun=$SECONDS crates
    made=$(digest_of_page)
    ! is_made "$page" "$made" || return 0
    mkdir -p "$kept" && exec 9>>"$kept/lock" || fail "$kept can't be written"
    flock 9
    crates=$(needed_crates | tr '\n' ' ')
    echo "another start, process $$," >"$kept/lock"
    build_modules
    rm -f "$page.made"
    "$top/web/build" folder "$page" "$modules" "$(digest_of_sources)" "$(toolchain)" || exit 5
    echo "$made" >"$page.made"
    give_lock_back
    say "the page was built in $((SECONDS - begun)) s"
}

# tells where the page is, and how it is tried
tell_page() {
    say "the page is a folder that any web server serves (docs/WEB.md): python3 -m http.server -b 127.0.0.1 -d $page 8050"
    echo "$page"
}
