# Completion of the programs and of check_program.py for bash:
#
#     source tools/completion/picky.bash

_picky_files() {
    mapfile -t COMPREPLY < <(compgen -f -- "$2")
    compopt -o filenames
}

_picky_words() { # CURRENT WORD..
    local current=$1
    shift
    mapfile -t COMPREPLY < <(compgen -W "$*" -- "$current")
}

# The options that may follow DATE, without those that are there.
_picky_options() { # CURRENT
    local option left=()
    for option in --until --no-before --no-after --no-chain --list; do
        [[ " ${COMP_WORDS[*]:1:COMP_CWORD-1} " == *" $option "* ]] || left+=("$option")
    done
    _picky_words "$1" "${left[@]}"
}

_picky_checked() { # CURRENT PREVIOUS COUNT-OF-WORDS-BEFORE-OPTIONS
    case $2 in
        --until) _picky_words "$1" "$(date -u +%Y-%m-%d)" ;;
        --list) _picky_files "" "$1" ;;
        *) if ((COMP_CWORD > $3)); then _picky_options "$1"; else _picky_files "" "$1"; fi ;;
    esac
}

_picky() {
    local current=$2 previous=$3
    if ((COMP_CWORD == 1)); then
        _picky_words "$current" basic check chain demo
    elif [[ ${COMP_WORDS[1]} == check ]]; then
        _picky_checked "$current" "$previous" 5
    elif [[ ${COMP_WORDS[1]} == demo ]]; then
        COMPREPLY=()
    else
        _picky_files "" "$current"
    fi
}

_picky_pe() {
    _picky_checked "$2" "$3" 3
}

_picky_anchor() {
    case $COMP_CWORD in
        2) _picky_words "$2" code time ;;
        3) _picky_words "$2" "$(date -u +%Y-%m-%d)" ;;
        4) _picky_words "$2" 1 2 3 4 5 6 7 8 ;;
        *) _picky_files "" "$2" ;;
    esac
}

_picky_ask() {
    if [[ $COMP_CWORD -eq 1 && $2 == -* ]]; then
        _picky_words "$2" --chain
    elif [[ $COMP_CWORD -eq 1 || ${COMP_WORDS[1]} == --chain ]]; then
        _picky_files "" "$2"
    else
        COMPREPLY=()
    fi
}

_picky_ca() {
    case $COMP_CWORD in
        1) _picky_files "" "$2" ;;
        2) _picky_words "$2" "$(date -u +%Y-%m-%d)" ;;
        *) COMPREPLY=() ;;
    esac
}

_check_program() {
    if [[ " ${COMP_WORDS[*]:1:COMP_CWORD-1} " == *" -- "* ]]; then
        _picky_files "" "$2"
        return
    fi
    case $3 in
        --at) _picky_words "$2" "$(date -u +%Y-%m-%d)" ;;
        --digest) COMPREPLY=() ;;
        --programs)
            mapfile -t COMPREPLY < <(compgen -d -- "$2")
            compopt -o filenames
            ;;
        *)
            if [[ $2 == -* ]]; then
                _picky_words "$2" --root --stamp-root --at --json --digest --programs --try --help
            else
                _picky_files "" "$2"
            fi
            ;;
    esac
}

# Documents call the script by `python3 tools/check_program.py`; of any other script the words are files.
_picky_python() {
    if ((COMP_CWORD > 1)) && [[ ${COMP_WORDS[1]##*/} == check_program.py ]]; then
        COMP_WORDS=("${COMP_WORDS[@]:1}")
        ((COMP_CWORD -= 1))
        _check_program check_program.py "$2" "$3"
    else
        _picky_files "" "$2"
    fi
}

complete -F _picky picky
complete -F _picky_pe picky_pe
complete -F _picky_anchor picky_anchor
complete -F _picky_ask picky_ask
complete -F _picky_ca picky_ca
complete -F _check_program check_program.py
complete -p python3 &> /dev/null || complete -F _picky_python python3
