# Made by tools/make manual: completes the options and files of nezdrab-dap.
complete -c nezdrab-dap -f
complete -c nezdrab-dap -s h -l help -d 'show this help message and exit'
complete -c nezdrab-dap -l version -d 'shows the newest release, and ends'
complete -c nezdrab-dap -l port -x -d 'waits there for editors; 0 is any free port'
complete -c nezdrab-dap -l socket -x -d 'waits there for one editor'
complete -c nezdrab-dap -l program -r -F -d 'a built search'
complete -c nezdrab-dap -l disassembler -r -F -d 'a built disassemble'
