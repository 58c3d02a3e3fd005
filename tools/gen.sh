# shellcheck shell=sh disable=SC2154
# The part of ./portland that keeps what `gen` draws: `portland gen .. --out DIR` reads it, and calls `gen_into`. It stands on the
# wrapper's own functions and names (fault_of, take_item, stop, tell; top, value).

# gen_into WORDS: draws as the program does, plays what was drawn from its folder, and holds both summaries against each other.
gen_into() {
    out=$value
    words=
    item=
    for word in "$@"; do
        case $item,$word in
            ,--out) item=--out ;;
            --out,*) item= ;;
            ,--out=*) ;;
            *) words="$words$(quote "$word")" ;;
        esac
    done
    eval "set -- $words"
    fault_of "$@"
    [ -z "$fault" ] || usage_and_help
    command -v python3 >/dev/null || stop "gen with --out needs python3, which draws what is kept"
    given --k "$@"
    k=$value
    given --number "$@"
    number=$value
    given --frames "$@"
    python3 "$top/tools/portland_drawn.py" "$k" "$number" "$value" "$out" || exit 1
    make_work
    "$top/portland" run --topology "$out/topology.toml" --script "$out/script" --captures "$out/captures" --out "$out" >"$out/summary"
    status=$?
    cat "$out/summary"
    [ $status -eq 0 ] || exit $status
    PORTLAND_HINTS=off "$top/portland" "$@" >"$work/summary" 2>/dev/null
    cmp -s "$out/summary" "$work/summary" || {
        tell "what was drawn into $out is not what gen plays: another summary comes of it"
        exit 1
    }
    note "$out has what was drawn, and what came of it: ./portland view $out"
    exit 0
}
