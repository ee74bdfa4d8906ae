# Completion of np and kubectl-np for bash. kubectl's own completion asks kubectl_complete-np for `kubectl np`.
# shellcheck shell=bash

# Puts the words before the cursor into `typed`, without their quotes. Bash breaks words at = too.
_np_words() {
    local word place
    typed=()
    for ((place = 1; place <= COMP_CWORD; place++)); do
        word=${COMP_WORDS[place]}
        word=${word//[\\\"\']/}
        [[ $word != \~/* ]] || word=$HOME/${word#??}
        if ((${#typed[@]})) && [[ ${typed[${#typed[@]} - 1]} == --* && ($word == = || ${COMP_WORDS[place - 1]} == =) ]]; then
            typed[${#typed[@]} - 1]+=$word
        else
            typed+=("$word")
        fi
    done
    # A blank behind = begins a new word, which is the empty value.
    ((${#typed[@]})) || typed=('')
}

_np() {
    local typed line files='' raw=${COMP_WORDS[COMP_CWORD]}
    _np_words
    COMPREPLY=()
    while IFS= read -r line; do
        case $line in
            :0) files=yes ;;
            :*) ;;
            *)
                [[ ${typed[${#typed[@]} - 1]} != --*=* ]] || line=${line#*=}
                # Within quotes bash takes the word as it is.
                case $raw in [\"\']*) ;; *) printf -v line %q "$line" ;; esac
                COMPREPLY+=("$line")
                ;;
        esac
    done < <(kubectl_complete-np --program "${1##*/}" "${typed[@]}" 2>/dev/null)
    if [ -n "$files" ]; then
        compopt -o filenames 2>/dev/null
        while IFS= read -r line; do COMPREPLY+=("$line"); done < <(compgen -f -- "${2#=}")
    fi
}
complete -F _np np kubectl-np
