# Completion of ./portland in bash: source completion/portland.bash

_portland_files() {
    local IFS=$'\n'
    compopt -o filenames 2>/dev/null
    if [ "$1" = folders ]; then
        COMPREPLY=($(compgen -d -- "$2"))
    else
        COMPREPLY=($(compgen -f -- "$2"))
    fi
}

# The items of a command, without those that stand there already.
_portland_items() {
    local items word left=
    case $1 in
        run | bridge) items='--topology --script --captures --out' ;;
        watch) items='--topology --script --captures --of --kind --lines --json' ;;
        check) items='--topology' ;;
        gen) items='--k --number --frames' ;;
        verify) items='--topology --journal' ;;
    esac
    for word in $items; do
        [[ " ${COMP_WORDS[*]:1:COMP_CWORD-1} " == *" $word "* ]] || left="$left $word"
    done
    COMPREPLY=($(compgen -W "$left" -- "$2"))
}

# The labels of the switches of the topology that is named, at most those of k = 24.
_portland_switches() {
    local topology=$1 k n half
    k=$(sed -n 's/^[[:space:]]*k[[:space:]]*=[[:space:]]*\([0-9]*\).*/\1/p' "$topology" 2>/dev/null | head -n 1)
    [[ $k =~ ^[0-9]+$ ]] && ((k >= 4 && k <= 24)) || return
    half=$((k / 2))
    for ((n = 0; n < k * half; n++)); do echo "e$((n / half)).$((n % half)) a$((n / half)).$((n % half))"; done
    for ((n = 0; n < half * half; n++)); do echo "c$((n / half)).$((n % half))"; done
}

_portland() {
    local word=${COMP_WORDS[COMP_CWORD]} before=${COMP_WORDS[COMP_CWORD - 1]} top command at topology
    local kinds='ldm proposal vote frame unread place link podwanted learned aged trapped begin end query members pod answer flood
        avoid invalidate release hello tree port silent attempt granted hold below grant free make pass redirect take drop number'
    COMPREPLY=()
    command=${COMP_WORDS[1]}
    [ "$command" = until ] && ((COMP_CWORD > 3)) && command=${COMP_WORDS[3]}
    if ((COMP_CWORD == 1)); then
        top=$(dirname -- "$(readlink -f -- "$(type -P -- "${COMP_WORDS[0]/#\~/$HOME}")")")
        COMPREPLY=($(compgen -W "run bridge watch check gen verify until prove try help --version
            $(find "$top/tools" -maxdepth 1 -type f -perm -u+x ! -name '*.*' ! -name explain -printf '%f\n' 2>/dev/null)" -- "$word"))
        return
    fi
    case $before in
        --topology | --script | --journal) _portland_files all "$word" ;;
        --captures | --out) _portland_files folders "$word" ;;
        --k) COMPREPLY=($(compgen -W '4 6 8 10 12 14 16 18 20 22 24' -- "$word")) ;;
        --kind) COMPREPLY=($(compgen -W "$kinds" -- "$word")) ;;
        --of)
            for ((at = 1; at < COMP_CWORD; at++)); do
                [ "${COMP_WORDS[at]}" != --topology ] || topology=${COMP_WORDS[at + 1]}
            done
            COMPREPLY=($(compgen -W "$(_portland_switches "$topology")" -- "$word"))
            ;;
        --number | --frames | --lines | until) ;;
        prove) COMPREPLY=($(compgen -W watch -- "$word")) ;;
        help) COMPREPLY=($(compgen -W 'run bridge watch check gen verify until prove try' -- "$word")) ;;
        *)
            if [ "${COMP_WORDS[1]}" = until ] && ((COMP_CWORD == 3)); then
                COMPREPLY=($(compgen -W 'run bridge' -- "$word"))
            else
                case $command in
                    run | bridge | watch | check | gen | verify) _portland_items "$command" "$word" ;;
                    *) _portland_files all "$word" ;;
                esac
            fi
            ;;
    esac
}

complete -F _portland portland ./portland
