# shellcheck shell=sh disable=SC2154
# The part of ./portland that proves: `portland prove` reads it, and calls `prove`. It stands on the wrapper's own
# functions and names (tell, make_work; top, crate, program, work).

# The program and the crates below it, each name on a line of its own.
crates_below() {
    awk -v program="${crate##*/}" '
        { sub(/#.*/, "") }
        /:/ { name = $1; sub(/:.*/, "", name); below = $0; sub(/[^:]*:/, "", below); of[name] = below }
        function visit(name, n, i, parts) {
            if (seen[name]++) return
            n = split(of[name], parts, " ")
            for (i = 1; i <= n; i++) if (parts[i] in of) visit(parts[i])
            print name
        }
        END { visit(program) }' "$top/crates.txt"
}

# take_crates ROOM: these crates as a repository of its own, without their must-fail edits. The kit's gate proves crates side by side
# and takes what this machine has proved before; on the repository itself it would try each edit too, and prove crates of tests.
take_crates() {
    crates_below >"$work/crates"
    mkdir -p "$1/.git" "$1/crates"
    cp "$top/HANDLES" "$1" || return 1
    awk 'NR == FNR { is[$1]; next } { name = $1; sub(/:.*/, "", name) } name in is' "$work/crates" "$top/crates.txt" >"$1/crates.txt"
    tar -cf - -C "$top/crates" --exclude=out --exclude=must-fail -T "$work/crates" | tar -xf - -C "$1/crates"
}

# say_done LOG: says which crates were proved since it was called last.
say_done() {
    grep -E '^rt: [a-z0-9_]+ (proved|is kept:.*)$' "$1" | cut -d ' ' -f 2 >"$work/now"
    tail -n +"$(($(wc -l <"$work/done") + 1))" "$work/now" >"$work/new"
    while read -r name; do
        echo "$name" >>"$work/done"
        tell "proved $name ($(wc -l <"$work/done") of $many)"
    done <"$work/new"
}

# wait_for CHILD LOG: waits until it ended, and leaves its status.
wait_for() {
    began=$(date +%s)
    : >"$work/done"
    while kill -0 "$1" 2>/dev/null; do
        say_done "$2"
        [ ! -t 2 ] || printf '%s of %s, %d s \033[K\r' "$(wc -l <"$work/done")" "$many" "$(($(date +%s) - began))" >&2
        sleep 1
    done
    wait "$1"
    status=$?
    say_done "$2"
}

prove() {
    command -v rt >/dev/null || {
        tell "rt, the kit of Rattle, is not on the path: nothing can be proved or built without it"
        exit 1
    }
    log=$crate/out/build.log
    mkdir -p "$crate/out" && touch "$crate/out/begun" || exit 1
    : >"$log"
    tell "proves the program and builds it, once ($log)"
    make_work
    take_crates "$work/room" || exit 1
    many=$(wc -l <"$work/crates")
    tell "$many crates are proved, side by side: over an hour of processor from nothing, minutes where this machine has proved them before"
    # What runs beside is not stopped by the keyboard.
    (cd "$work/room" && RT_JOBS=${PORTLAND_JOBS:-$(nproc 2>/dev/null || echo 1)} exec rt ci) >"$log" 2>&1 </dev/null &
    wait_for $! "$log"
    built=$work/room/crates/${crate##*/}/out/${crate##*/}
    if [ $status -ne 0 ] || [ ! -x "$built" ]; then
        tell "the program could not be proved and built: see $log"
        exit 1
    fi
    # Not into the file itself, which may be playing.
    cp "$built" "$program.new" && mv "$program.new" "$program" || exit 1
    # What changes while it is built counts as newer.
    touch -r "$crate/out/begun" "$program"
    tell "proved and built"
}
