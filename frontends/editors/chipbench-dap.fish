# Completion of chipbench-dap's options for fish; made by frontends/editors/generate.py.
complete -c chipbench-dap -l help -d 'show this help message and exit'
complete -c chipbench-dap -l program -r -d 'the chipbench to run'
