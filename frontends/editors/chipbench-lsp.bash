# Completion of chipbench-lsp's options for bash; made by frontends/editors/generate.py.
_chipbench_lsp() {
    local word=${COMP_WORDS[COMP_CWORD]} before=${COMP_WORDS[COMP_CWORD-1]}
    case $before in
    esac
    case $word in
        -*) COMPREPLY=($(compgen -W "--help --program --stdio" -- "$word")) ;;
        *) COMPREPLY=($(compgen -f -- "$word")) ;;
    esac
}
complete -o filenames -F _chipbench_lsp chipbench-lsp
