#compdef nezdrab-explore
# Made by tools/make manual: completes the options and files of nezdrab-explore.
_arguments \
  '(-h --help)'{-h,--help}'[show this help message and exit]' \
  '--core=[Words of core from address 0 on \[default\: zeros\]]:FILE:_files' \
  '--disk=[Words of the drive from word 0 on \[default\: zeros\]]:FILE:_files' \
  '--disk1=[Words of drive 1, which version 2 has \[default\: zeros\]]:FILE:_files' \
  '--disk2=[The same of drive 2]:FILE:_files' \
  '--disk3=[The same of drive 3]:FILE:_files' \
  '--disk4=[The same of drive 4]:FILE:_files' \
  '--disk5=[The same of drive 5]:FILE:_files' \
  '--disk6=[The same of drive 6]:FILE:_files' \
  '--disk7=[The same of drive 7]:FILE:_files' \
  '--tape=[Paper tape, a file of plain bytes \[default\: empty\]]:FILE:_files' \
  '--units=[Units of core of 4096 words, 1 to 31 \[default\: 31\]]:N: ' \
  '--start=[Start address, octal and even \[default\: 1000\]]:A: ' \
  '--stride=[Turns between kept states, 1 to 2000000000 \[default\: 10000\]]:N: ' \
  '--version[shows the newest release, and ends]' \
  '--echo[shows each line from a pipe before its replies]' \
  '--sweep=[does one part of a sweep, as `sweep --jobs` writes it, and ends]:TEXT: ' \
  '--matters=[the same with a part that `matters --jobs` writes]:TEXT: ' \
  '--program=[a built search, in place of what tools/program finds]:FILE:_files' \
  '--disassembler=[a built disassemble, in the same way]:FILE:_files' \
  '--resume[takes up a journal, in place of a SESSION\: the newest one, or FILE]::FILE:_files' \
  '--journal=[the journal is FILE, from a pipe too]:FILE:_files' \
  '--no-journal[there is no journal]' \
  '1:SESSION:_files -g "*.session"'
