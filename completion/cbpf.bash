# Completion of the command line of cbpf(1) for bash.

# The names of files that begin with $1; those that begin with a dash get `./` where $2 is empty. `compgen` ends each
# name by a newline, which a name may have too. So it puts `//` before that newline.
_cbpf_names() {
    local line name=''
    compopt -o filenames 2> /dev/null
    while IFS= read -r line; do
        name+=$line
        if [[ $name != *// ]]; then
            name+=$'\n'
            continue
        fi
        [[ -z $2 && $name == -* ]] && name=./$name
        COMPREPLY+=("${name%//}")
        name=''
    done < <(compgen -f -S // -- "$1")
}

_cbpf_words() {
    mapfile -t COMPREPLY < <(compgen -W "$2" -- "$1")
}

_cbpf_extensions='proto type ifidx mark queue hatype rxhash cpu vlan_tci vlan_avail vlan_tpid'

_cbpf() {
    local word=${COMP_WORDS[COMP_CWORD]} options most=0 names=0 ended='' at
    COMPREPLY=()
    if ((COMP_CWORD == 1)); then
        _cbpf_words "$word" 'asm dbg why help --help --version'
        return
    fi
    case ${COMP_WORDS[1]} in
        asm) options='-c --help' most=1 ;;
        # The second name is the output's, which is emptied: no file that is there is offered.
        dbg) options='--help' most=1 ;;
        # The value of an extension is a number.
        why)
            [[ $word == '=' || ${COMP_WORDS[COMP_CWORD - 1]} == '=' ]] && return
            options='-l -g -p -v --help' most=2
            ;;
        help)
            ((COMP_CWORD == 2)) && _cbpf_words "$word" 'asm dbg why help'
            return
            ;;
        *) return ;;
    esac
    for ((at = 2; at < COMP_CWORD; at++)); do
        case $ended${COMP_WORDS[at]} in
            --) ended=yes ;;
            # An extension and its value. Bash may make three words of them, and a `=` by itself is the second.
            -v)
                if ((at + 1 == COMP_CWORD)) && [[ ${COMP_WORDS[1]} == why ]]; then
                    _cbpf_words "$word" "$(printf '%s= ' $_cbpf_extensions)"
                    compopt -o nospace 2> /dev/null
                    return
                fi
                ((at += 1))
                ;;
            =) ((at += 1)) ;;
            -?*) ;;
            *) ((names += 1)) ;;
        esac
    done
    if [[ -z $ended && $word == -* ]]; then
        _cbpf_words "$word" "$options"
    elif ((names < most)); then
        _cbpf_names "$word" "$ended"
    fi
}

complete -F _cbpf cbpf
