# Completion of chipbench-steps's options for bash; made by frontends/editors/generate.py.
_chipbench_steps() {
    local word=${COMP_WORDS[COMP_CWORD]} before=${COMP_WORDS[COMP_CWORD-1]}
    case $before in
        --profile) COMPREPLY=($(compgen -W "schip vip chip48 schip10 schip-modern octo" -- "$word")); return ;;
        --quirks | --instruction | --count | --seed | --programs | --format) return ;;
    esac
    case $word in
        -*) COMPREPLY=($(compgen -W "--help --profile --quirks --instruction --count --seed --programs --format --force --program" -- "$word")) ;;
        *) COMPREPLY=($(compgen -f -- "$word")) ;;
    esac
}
complete -o filenames -F _chipbench_steps chipbench-steps
