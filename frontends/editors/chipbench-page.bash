# Completion of chipbench-page's options for bash; made by frontends/editors/generate.py.
_chipbench_page() {
    local word=${COMP_WORDS[COMP_CWORD]} before=${COMP_WORDS[COMP_CWORD-1]}
    case $before in
        --profile) COMPREPLY=($(compgen -W "schip vip chip48 schip10 schip-modern octo" -- "$word")); return ;;
        --port | --rate | --tape | --seed | --quirks | --every) return ;;
    esac
    case $word in
        -*) COMPREPLY=($(compgen -W "--help --image --port --no-open --rate --tape --seed --profile --quirks --every" -- "$word")) ;;
        *) COMPREPLY=($(compgen -f -- "$word")) ;;
    esac
}
complete -o filenames -F _chipbench_page chipbench-page
