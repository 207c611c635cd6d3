# Made by tools/make manual: completes the options and files of nezdrab-disassemble.
complete -c nezdrab-disassemble -f
complete -c nezdrab-disassemble -l assemble -d 'Read the texts of instructions, and print their words'
complete -c nezdrab-disassemble -s h -l help -d 'Print help'
complete -c nezdrab-disassemble -s V -l version -d 'Print version'
