# Proves the crates that the program stands on, one after the other, and builds it. To be sourced after program.bash;
# $logs is the folder of this start's logs, and $owner the process of the session beside which it is proved, if any.

# how many megabytes of memory are free, for the machine and for this container
free_memory() {
    local free used limit
    free=$(awk '/^MemAvailable:/ { print int($2 / 1024) }' /proc/meminfo 2>/dev/null)
    if read -r limit 2>/dev/null </sys/fs/cgroup/memory.max && [ "$limit" != max ] &&
        used=$(awk '$1 == "anon" { print $2 }' /sys/fs/cgroup/memory.stat 2>/dev/null) && [ -n "$used" ]; then
        limit=$(((limit - used) / 1048576))
        [ "$limit" -gt "${free:-$limit}" ] || free=$limit
    fi
    echo "${free:-4000}"
}

# How many processors a proof takes: all, up to 8, but one for each 3,000 MB of free memory. While the toolchain proves a crate it
# locks all that this stands on, so crates are not proved side by side.
processors() {
    if [ -n "${WB_JOBS-}" ]; then
        echo "$WB_JOBS"
        return
    fi
    local all by_memory
    all=$(nproc 2>/dev/null || echo 2)
    [ "$all" -lt 8 ] || all=8
    by_memory=$(($(free_memory) / 3000))
    [ "$by_memory" -ge "$all" ] || all=$by_memory
    echo "$((all > 1 ? all : 1))"
}

# begins to prove a crate, as the process $at; the program's own crate is built too
start() {
    local task="check --jobs $jobs"
    [ "$1" = wb ] && task="run --jobs $jobs -- check"
    # each word of the task is a word of rt
    (cd "$top/crates/$1" && exec rt $task </dev/null >"$logs/$1.log" 2>&1) 9>&- &
    at=$!
}

# how many functions of a crate are checked, of how many
share_of() {
    sed -n 's/^checked .*, \([0-9]* of [0-9]*\)$/\1/p' "$logs/$1.log" 2>/dev/null | tail -n 1
}

# whether standard error is a terminal that no session writes to
has_terminal() {
    [ -z "$owner" ] && [ -t 2 ]
}

clear_line() {
    ! has_terminal || printf '\r\033[K' >&2
}

# a bar: $1 parts of $2
bar_of() {
    local width=20 filled
    filled=$(($1 * width / $2))
    printf '%*s' "$filled" '' | tr ' ' '#'
    printf '%*s' "$((width - filled))" '' | tr ' ' .
}

# Tells what is proved, and which crate is at work: in the file $kept/progress, and on a terminal in one line that
# renews itself.
show() {
    local share work minutes=$((SECONDS / 60))
    share=$(share_of "$1")
    # its few functions are checked soon, and the rest of its minutes builds the program
    [ "$1" != wb ] || share='and the build of the program'
    work="$1${share:+ $share}"
    [ "$proved $minutes $work" != "$shown" ] || return 0
    shown="$proved $minutes $work"
    echo "$proved $many $minutes $work" >"$kept/progress.new" && mv -f "$kept/progress.new" "$kept/progress"
    ! has_terminal || printf '\r\033[K%.110s' "wb: [$(bar_of "$proved" "$many")] $proved of $many crates proved, $minutes min; $work" >&2
}

# whether the launcher is still there, and the session that it proves beside
is_wanted() {
    kill -0 $$ 2>/dev/null && { [ -z "$owner" ] || kill -0 "$owner" 2>/dev/null; }
}

# Proves all crates, those first that others stand on, and builds the program; ends at the first that is not proved. It runs in a
# process group of its own, which ends with the launcher, $$, however that ends.
prove_all() {
    local crate at jobs many proved=0 shown=''
    many=$(wc -w <<<"$crates")
    jobs=$(processors)
    for crate in $crates; do
        start "$crate"
        while kill -0 "$at" 2>/dev/null; do
            show "$crate"
            sleep 0.2
            is_wanted || kill -TERM 0
        done
        if ! wait "$at"; then
            clear_line
            cat "$logs/$crate.log" >&2
            echo "$crate" >"$logs/failed"
            return 1
        fi
        proved=$((proved + 1))
        has_terminal || say "$crate is proved, $proved of $many crates"
    done
    clear_line
}
