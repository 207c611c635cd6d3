#compdef nezdrab-dap
# Made by tools/make manual: completes the options and files of nezdrab-dap.
_arguments \
  '(-h --help)'{-h,--help}'[show this help message and exit]' \
  '--version[shows the newest release, and ends]' \
  '--port=[waits there for editors; 0 is any free port]:N: ' \
  '--socket=[waits there for one editor]:PATH: ' \
  '--program=[a built search]:FILE:_files' \
  '--disassembler=[a built disassemble]:FILE:_files'
