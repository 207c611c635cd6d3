#compdef nezdrab-disassemble
# Made by tools/make manual: completes the options and files of nezdrab-disassemble.
_arguments \
  '--assemble[Read the texts of instructions, and print their words]' \
  '(-h --help)'{-h,--help}'[Print help]' \
  '(-V --version)'{-V,--version}'[Print version]'
