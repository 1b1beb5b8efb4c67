# Completion of chipbench-lsp's options for fish; made by frontends/editors/generate.py.
complete -c chipbench-lsp -l help -d 'show this help message and exit'
complete -c chipbench-lsp -l program -r -d 'the chipbench to run'
complete -c chipbench-lsp -l stdio -d 'ignored: the server always uses standard input and output'
