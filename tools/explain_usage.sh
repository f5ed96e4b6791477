# explain_usage WORD..: prints what is wrong with the words of a command line, by the table of commands ($help/commands.tsv).
# Prints nothing if the program accepts the words. tools/test_launcher.py compares it with the program.
explain_usage() {
    local LC_ALL=C kind name parts wanted more command=${1-} arguments='' options='' exclude='' word value rest=0
    local -A value_of=() greatest=() seen=()
    local -a words=() needed=()
    [ $# -gt 0 ] || { echo 'no command is given'; return; }
    while IFS='|' read -r kind name wanted parts more; do
        case $kind in
        command) [ "$name" != "$command" ] || { arguments=$wanted options=$parts exclude=$more kind=found seen[found]=1; } ;;
        option) value_of[$name]=$wanted greatest[$name]=$parts ;;
        number) greatest[$name]=$wanted ;;
        esac
    done < <(tr '\t' '|' <"$help/commands.tsv")
    [ -n "${seen[found]-}" ] || { echo "there is no command ${command@Q}"; return; }
    shift
    is_number() { # is_number WORD GREATEST
        local digits=${1#[+]}
        [[ $digits =~ ^0*([0-9]+)$ ]] || return
        digits=${BASH_REMATCH[1]}
        [ "${#digits}" -lt "${#2}" ] || { [ "${#digits}" -eq "${#2}" ] && ! [[ $digits > $2 ]]; }
    }
    while [ $# -gt 0 ]; do
        word=$1
        shift
        if [ "$rest" -eq 1 ] || [[ $word != -?* ]]; then
            words+=("$word")
            continue
        fi
        [ "$word" != -- ] || { rest=1; continue; }
        name=${word%%=*}
        if [[ " $options " != *" $name "* ]]; then
            if [ -n "${value_of[$name]+known}" ]; then echo "$command has no option $name"; else echo "there is no option ${name@Q}"; fi
            return
        fi
        [ -z "${seen[$name]-}" ] || { echo "$name is given twice"; return; }
        seen[$name]=1
        if [ -z "${value_of[$name]}" ]; then
            [ "$word" = "$name" ] || { echo "$name takes no value"; return; }
            continue
        fi
        if [ "$word" != "$name" ]; then
            value=${word#*=}
        elif [ $# -eq 0 ] || [[ $1 == -?* ]]; then
            echo "$name needs a number"
            return
        else
            value=$1
            shift
        fi
        is_number "$value" "${greatest[$name]}" || { echo "$name takes a number from 0 to ${greatest[$name]}, not ${value@Q}"; return; }
    done
    read -r -a needed <<<"$arguments"
    for name in "${!needed[@]}"; do
        [ "$name" -lt "${#words[@]}" ] || { echo "${needed[name]} is missing"; return; }
        more=${greatest[${needed[name]}]-}
        [ -z "$more" ] || is_number "${words[name]}" "$more" ||
            { echo "${needed[name]} is a number from 0 to $more, not ${words[name]@Q}"; return; }
    done
    [ "${#words[@]}" -le "${#needed[@]}" ] || { echo "${words[${#needed[@]}]@Q} is one argument too many"; return; }
    if [ -n "$exclude" ]; then
        local both=1
        for name in $exclude; do [ -n "${seen[$name]-}" ] || both=0; done
        [ "$both" -eq 0 ] || { echo "${exclude/ / and } exclude each other"; return; }
    fi
    for word in "${words[@]}"; do
        [[ $word != *[!\ -~]* ]] || printf %s "$word" | iconv -f UTF-8 -t UTF-8 >/dev/null 2>&1 || { echo "${word@Q} is not UTF-8"; return; }
    done
}
