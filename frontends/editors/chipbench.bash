# Completion of chipbench's words for bash; made by frontends/editors/generate.py.
_chipbench() {
    local word=${COMP_WORDS[COMP_CWORD]} before=${COMP_WORDS[COMP_CWORD-1]} options=
    if [ "$COMP_CWORD" -eq 1 ]; then
        COMPREPLY=($(compgen -W "debug asm list syms dis run trace picture check test explore prove explain licences help --help --version" -- "$word"))
        return
    fi
    case $before in
        --profile) COMPREPLY=($(compgen -W "schip vip chip48 schip10 schip-modern octo" -- "$word")); return ;;
        --color) COMPREPLY=($(compgen -W "auto always never" -- "$word")); return ;;
        --rate | --tape | --seed | --quirks | --every | --steps | --from | --scale | --allow | --seconds | --states | --memory | --keys-allowed | --want | --reach | --never | --always | --only) return ;;
        explain) COMPREPLY=($(compgen -W "$(chipbench explain 2>/dev/null | cut -d ' ' -f 1)" -- "$word")); return ;;
    esac
    case ${COMP_WORDS[1]} in
        debug) options="--rate --tape --seed --profile --quirks --every --image --quiet --help" ;;
        asm) options=" --help" ;;
        list) options="--hex --image --help" ;;
        syms) options="--hex --help" ;;
        dis) options=" --help" ;;
        run) options="--steps --rate --tape --seed --profile --quirks --keys --image --help" ;;
        trace) options="--steps --rate --tape --seed --profile --quirks --keys --image --from --hash --json --against --help" ;;
        picture) options="--steps --rate --tape --seed --profile --quirks --keys --image --ascii --pbm --png --scale --help" ;;
        check) options="--json --allow --cover --seconds --color --tape --seed --profile --quirks --help" ;;
        test) options="--update --tap --help" ;;
        explore) options="--steps --states --memory --seconds --deep --any-speed --keys-allowed --keys-to --progress --no-facts --rate --tape --seed --profile --quirks --image --want --reach --never --always --cover --help" ;;
        prove) options="--steps --states --memory --seconds --deep --any-speed --keys-allowed --keys-to --progress --no-facts --rate --tape --seed --profile --quirks --only --json --help" ;;
        explain) options=" --help" ;;
        licences) options=" --help" ;;
    esac
    case $word in
        -*) COMPREPLY=($(compgen -W "$options" -- "$word")) ;;
        *) COMPREPLY=($(compgen -f -- "$word")) ;;
    esac
}
complete -o filenames -F _chipbench chipbench
