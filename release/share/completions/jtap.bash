# Completes the words of jtap in bash. Made by release/share/write.

# Files of a pattern, and folders on the way to them.
_jtap_files() { # WORD PATTERN
    compopt -o filenames 2>/dev/null
    mapfile -t COMPREPLY < <(compgen -f -X "!$2" -- "$1"; compgen -d -- "$1")
    mapfile -t COMPREPLY < <(printf '%s\n' "${COMPREPLY[@]}" | grep . | LC_ALL=C sort -u)
}

# The paths of the classes and tests in the scripts of the command, or in those of this folder.
_jtap_paths() { # PROGRAM WORD
    local scripts=() word
    for word in "${COMP_WORDS[@]:2}"; do [[ $word == *.jtap ]] && scripts+=("$word"); done
    [ ${#scripts[@]} = 0 ] && scripts=(*.jtap)
    COMPREPLY=($(compgen -W "$("$1" plan "${scripts[@]}" 2>/dev/null | awk 'NR > 1 { print $NF }')" -- "$2"))
}

_jtap() {
    local word=${COMP_WORDS[COMP_CWORD]} before=${COMP_WORDS[COMP_CWORD - 1]} options
    COMPREPLY=()
    if [ "$COMP_CWORD" = 1 ]; then
        COMPREPLY=($(compgen -W "run plan replay check affected settings --help --version" -- "$word"))
        return
    fi
    # (`=` is a word of its own here)
    if [ "$word" = = ]; then
        word=
    elif [ "$before" = = ]; then
        before=${COMP_WORDS[COMP_CWORD - 2]}
    fi
    case $before in
        --summary)
            if [ "${COMP_WORDS[COMP_CWORD]}" = = ] || [ "${COMP_WORDS[COMP_CWORD - 1]}" = = ]; then
                COMPREPLY=($(compgen -W "all" -- "$word"))
                return
            fi
            ;;
        --settings | --world) _jtap_files "$word" "*.toml"; return ;;
        --schedule | --only-from | --failed | --junit | --html | --record | --trace) _jtap_files "$word" "*"; return ;;
        --old) _jtap_files "$word" ""; return ;;
        --only) _jtap_paths "$1" "$word"; return ;;
        --processors) COMPREPLY=($(compgen -W "auto" -- "$word")); return ;;
        --match | --shard | --durations) return ;;
    esac
    case ${COMP_WORDS[1]} in
        run) options="--serial --settings --world --processors --only --match --only-from --shard --explain --summary --failed --junit --html --github --durations --record --trace --stats --progress --help" ;;
        plan) options="--tests --places --why --conflicts --settings --world --processors --only --match --only-from --shard --explain --help" ;;
        replay) options="--schedule --settings --world --processors --only --match --only-from --shard --explain --summary --failed --junit --html --github --help" ;;
        check) options="--settings --world --processors --only --match --only-from --shard --explain --help" ;;
        affected) options="--old --world --paths --explain --help" ;;
        settings) options="--settings --processors --explain --help" ;;
        *) return ;;
    esac
    if [[ $word == -* ]]; then
        COMPREPLY=($(compgen -W "$options" -- "$word"))
    else
        _jtap_files "$word" "*.jtap"
    fi
}

complete -F _jtap jtap
