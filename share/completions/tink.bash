# Completion of tink for bash.

_tink() {
    local word=${COMP_WORDS[COMP_CWORD]} before=${COMP_WORDS[COMP_CWORD - 1]} command=${COMP_WORDS[1]}
    local commands="new add keys templates rotate promote enable disable destroy delete convert encrypt decrypt check
        info rewrap range sign verify wrap unwrap help version"
    local keys="-k --keys --master --master-aad" stream="-o --output --force --no-clobber" options=
    COMPREPLY=()

    if ((COMP_CWORD == 1)); then
        COMPREPLY=($(compgen -W "$commands -h --help -V --version" -- "$word"))
        return
    fi

    # Bash takes `--format=json` apart at the `=`.
    if [[ $word == = ]]; then
        word=
    elif [[ $before == = ]]; then
        before=${COMP_WORDS[COMP_CWORD - 2]}
    fi
    case $before in
    --format)
        COMPREPLY=($(compgen -W "json binary" -- "$word"))
        return
        ;;
    --prefix)
        COMPREPLY=($(compgen -W "tink raw legacy crunchy" -- "$word"))
        return
        ;;
    -k | --keys | -o | --output | -t | --to | --master)
        compopt -o filenames 2>/dev/null
        COMPREPLY=($(compgen -f -- "$word"))
        return
        ;;
    --aad | --to-aad | --master-aad | --start | --length) return ;;
    esac

    case $command in
    new) options="-o --output --format --prefix" ;;
    keys) options="--json" ;;
    rotate) options="--any" ;;
    convert) options="-o --output --format" ;;
    encrypt | decrypt) options="$keys --aad $stream" ;;
    check | info) options="$keys --aad" ;;
    rewrap) options="$keys --aad -t --to --to-aad $stream" ;;
    range) options="$keys --aad --start --length $stream" ;;
    sign | verify) options="$keys -o --output --no-clobber" ;;
    wrap | unwrap) options="-k --keys -o --output --aad --format" ;;
    esac
    if [[ $word == -* ]]; then
        COMPREPLY=($(compgen -W "$options -q --quiet -h --help" -- "$word"))
        return
    fi

    case $command in
    help) COMPREPLY=($(compgen -W "$commands" -- "$word")) ;;
    new) COMPREPLY=($(compgen -W "$(tink templates 2>/dev/null)" -- "$word")) ;;
    add | rotate)
        compopt -o filenames 2>/dev/null
        COMPREPLY=($(compgen -f -- "$word"; ((COMP_CWORD > 2)) && compgen -W "$(tink templates 2>/dev/null)" -- "$word"))
        ;;
    templates | version) ;;
    *)
        compopt -o filenames 2>/dev/null
        COMPREPLY=($(compgen -f -- "$word"))
        ;;
    esac
}

complete -F _tink tink
