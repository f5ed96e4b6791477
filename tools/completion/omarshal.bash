# Completion of omarshal for bash. This file is written by tools/make_help.py from tools/commands.json.
_omarshal() {
    local word=${COMP_WORDS[COMP_CWORD]} command=${COMP_WORDS[1]-} i position=0 value=0 options
    COMPREPLY=()
    if [ "$COMP_CWORD" -eq 1 ]; then
        case $word in
        -*) mapfile -t COMPREPLY < <(compgen -W '--help --version --prove' -- "$word") ;;
        *) mapfile -t COMPREPLY < <(compgen -W 'build check dump edit gen get help same scan show trees verify' -- "$word") ;;
        esac
        return
    fi
    case $command in
    help) [ "$COMP_CWORD" -ne 2 ] || mapfile -t COMPREPLY < <(compgen -W 'build check dump edit gen get same scan show trees verify' -- "$word"); return ;;
    check) options='--limit --skip --only --cert --lines' ;;
    show) options='--limit --skip --only --pretty --decimal --lines' ;;
    get) options='--limit --skip --only --pretty --decimal --lines' ;;
    edit) options='--limit --skip --compat32 --decimal --lines' ;;
    dump) options='--limit --skip --only' ;;
    same) options='--limit --skip' ;;
    scan) options='--limit' ;;
    trees) options='--limit --skip --lines' ;;
    verify) options='--limit --skip --lines' ;;
    build) options='--decimal --lines' ;;
    gen) options='' ;;
    *) return ;;
    esac
    # The number of the word among the arguments.
    for ((i = 2; i < COMP_CWORD; i++)); do
        if [ "$value" -eq 1 ]; then value=0; continue; fi
        case ${COMP_WORDS[i]} in --limit | --skip | --only) value=1 ;; -*) ;; *) position=$((position + 1)) ;; esac
    done
    [ "$value" -eq 0 ] || return
    case $word in
    -*) mapfile -t COMPREPLY < <(compgen -W "$options --help" -- "$word") ;;
    *)
        case $command-$position in
        check-0 | show-0 | get-0 | edit-0 | edit-2 | trees-0 | verify-0 | verify-2 | build-0) mapfile -t COMPREPLY < <(compgen -f -- "$word") ;;
        esac
        ;;
    esac
}
complete -o filenames -F _omarshal omarshal
