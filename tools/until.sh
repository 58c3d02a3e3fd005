# shellcheck shell=sh disable=SC2034,SC2154
# The part of ./portland that plays up to a line: `portland until` reads it, and calls `until_line`. It stands on the
# wrapper's own functions and names (stop, tell, take_script, fault_of, refuse_overwriting, play; work, words, given, input).

until_line() {
    number=$1
    shift
    case $number in
        '' | *[!0-9]* | 0*)
            stop "until wants the number of a line, from 1 on: ./portland until 12 run --topology T --script S --captures DIR --out DIR"
            ;;
    esac
    way=
    if [ "${1:-}" = try ]; then
        way=try
        shift
    fi
    is_play "${1:-}" || set -- run "$@"
    take_bare "$@"
    eval "set -- $words"
    make_work
    take_script "$work/before" "$@"
    eval "set -- $words"
    fault_of "$@"
    [ -z "$fault" ] || usage_and_help
    if [ "$given" = - ]; then
        cat >"$work/whole" || exit 1
    elif ! cat -- "$given" >"$work/whole" 2>/dev/null; then
        tell "cannot read $given"
        exit 3
    fi
    head -n $((number - 1)) "$work/whole" >"$input"
    refuse_overwriting "$@"
    if [ -z "$way" ] && ! is_proved; then
        way=try
        tell_unproved ''
    fi
    play "${way:-proved}" "$@"
    [ "$status" -ne 0 ] || show_line
    exit "$status"
}

# Shows the line before which the run ended, and for an `expect` what was there.
show_line() {
    lines=$(wc -l <"$work/whole")
    if [ "$number" -gt $((lines + 1)) ]; then
        tell "the script has $lines lines: it was played to its end"
        return
    fi
    line=$(sed -n "${number}p" "$work/whole" | tr -d '\r')
    tell "before line $number: ${line:-(nothing stands there)}"
    # shellcheck disable=SC2086
    set -- ${line%%#*}
    [ "${1:-}" = expect ] || return 0
    case "${2:-} $#" in
        'arrived 4')
            there=$(grep -c "^arrived [0-9]* $3 " "$out/journal.txt")
            tell "there: $there frames arrived at $3, the line expects $4"
            awk -v host="$3" '$1 == "line" { line = $2 } $1 == "arrived" && $3 == host { print "  line " line ": frame " $2 }' \
                "$out/journal.txt" | tail -n 20 >&2
            ;;
        'dropped 4')
            there=$(grep -c "^dropped [0-9]* $3\$" "$out/journal.txt")
            tell "there: $there frames ended $3, the line expects $4"
            awk '$1 == "line" { line = $2 } $1 == "dropped" { print "  line " line ": frame " $2 " ended " $3 }' \
                "$out/journal.txt" | tail -n 20 >&2
            ;;
        'address 4')
            there=$(awk -v host="$3" '$1 == "granted" && $3 == host { has[$2] } $1 == "registered" && ($2 in has) { last = $2 }
                END { print last == "" ? "none" : last }' "$out/journal.txt")
            tell "there: the newest registered address of $3 is $there, the line expects $4"
            ;;
        'settled 2')
            there=$(awk '$1 == "line" { line = $2 } $1 ~ /^(un)?settled$/ { last = "line " line " ended " $0 }
                END { print last == "" ? "no settle line was played" : last }' "$out/journal.txt")
            tell "there: $there"
            ;;
    esac
}
