# Completion of chipbench-dap's options for bash; made by frontends/editors/generate.py.
_chipbench_dap() {
    local word=${COMP_WORDS[COMP_CWORD]} before=${COMP_WORDS[COMP_CWORD-1]}
    case $before in
    esac
    case $word in
        -*) COMPREPLY=($(compgen -W "--help --program" -- "$word")) ;;
        *) COMPREPLY=($(compgen -f -- "$word")) ;;
    esac
}
complete -o filenames -F _chipbench_dap chipbench-dap
