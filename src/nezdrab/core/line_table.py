"""The lines of the program search, as its option --lines prints them: the columns are those of Line
in sessions.py. `tools/check help --make` makes this file of the program; change the rows in the
crates pdp_program and search."""

ROWS = """\
core A W\tsession\tedit\taddress word\tok\tnone\t\
the core word at address A is W as of power-up
uncore A\tsession\tedit\taddress\tok\tnone\t\
take that back
disk I W\tsession\tedit\tplace word\tok\tnone\t\
word I of the drive is W as of power-up
patches\tsession\tlist\t\tpatches C\tnone\t\
list these words
tape B B ..\tsession\tedit\tbyte byte\tok\tnone\t\
these bytes are the tape in the reader as of power-up
delay L N\tsession\tedit\tdevice turns\tok\tnone\t\
an operation of L takes N turns, the clock ticks each N turns (0: by events alone); L is \
printer, reader, punch, disk or clock
at T EVENT\tsession\tedit\tturn event\tevent E\tnone\t\
put an event at turn T
alter E T EVENT\tsession\tedit\tnumber turn event\tok\tnone\t\
give event E this turn and this event
drop E\tsession\tedit\tnumber\tok\tnone\t\
take event E out
regs N\tsession\tquestion\tturn\tR0 w\tbefore N\t\
the registers before turn N
mem N A C\tsession\tquestion\tturn address count\tmem w\tbefore N\t\
C words of core from address A on, before turn N
dsk N I C\tsession\tquestion\tturn place count\tdsk w\tbefore N\t\
C words of the drive from word I on, before turn N
text N\tsession\tquestion\tturn\ttext C:\tbefore N\t\
what was printed on the console before turn N
punched N\tsession\tquestion\tturn\tpunched C:\tbefore N\t\
what was punched before turn N
last N A\tsession\tquestion\tturn address\tlast T\tbefore N\t\
who last wrote the core word at A before turn N, and when
devices N\tsession\tquestion\tturn\tdevices TKS\tbefore N\t\
the registers of the devices before turn N
pages N\tsession\tquestion\tturn\tpages SR0\tbefore N\t\
the registers of memory management before turn N
trail N C\tsession\tquestion\tturn count\ttrail C\tC before N\t\
the last C turns before turn N: PC and act of each
version 2\tsession\tedit\t\tok\tnone\t\
eight drives from here on, and these lines in place of those of the one drive
disk D I W\tsession\tedit\tdrive place word\tok\tnone\t\
word I of drive D is W as of power-up
dsk N D I C\tsession\tquestion\tturn drive place count\tdsk w\tbefore N\t\
C words of drive D from word I on, before turn N
first N M at A\tsearch\tquestion\tturn turn address\tfirst T\tN to M\t\
the first turn that runs the instruction at A
first N M at A MODE\tsearch\tquestion\tturn turn address mode\tfirst T\tN to M\t\
the same in one mode of the processor
first N M vector V\tsearch\tquestion\tturn turn vector\tfirst T\tN to M\t\
the first turn that serves an interrupt through V
first N M trap V\tsearch\tquestion\tturn turn vector\tfirst T\tN to M\t\
the first turn that has a trap through V
first N M where CONDITION\tsearch\tquestion\tturn turn condition\tfirst T\tN to M\t\
the first turn that meets the CONDITION
latest N M at A\tsearch\tquestion\tturn turn address\tlatest T\tN to M\t\
the last turn that runs the instruction at A
latest N M at A MODE\tsearch\tquestion\tturn turn address mode\tlatest T\tN to M\t\
the same in one mode of the processor
latest N M vector V\tsearch\tquestion\tturn turn vector\tlatest T\tN to M\t\
the last turn that serves an interrupt through V
latest N M trap V\tsearch\tquestion\tturn turn vector\tlatest T\tN to M\t\
the last turn that has a trap through V
latest N M where CONDITION\tsearch\tquestion\tturn turn condition\tlatest T\tN to M\t\
the last turn that meets the CONDITION
counts N M MODE A C\tsearch\tquestion\tturn turn mode address count\tcounts c\tN to M\t\
how many turns run, in the MODE, the instruction at each of C words from A on
writes N M A\tsearch\tquestion\tturn turn address\twrites C\tN to M\t\
the writes to the core word at A: turn, who wrote and the word; after 256 it ends, with 'or \
more' if turns are left
reads N M A\tsearch\tquestion\tturn turn address\treads C\tN to M\t\
the reads of the core word at A: turn, who read and the word, of each turn the first; after 256 \
it ends, with 'or more' if turns are left
accesses N C\tsearch\tquestion\tturn count\taccesses C\tC before N\t\
what the C turns before turn N have in them: mode, PC and act of each, its events, what comes \
out, the function of the disk that is done, and each cycle on the bus; after whole turns with \
256 cycles it ends, with 'or more' if turns are left
moves N C\tsearch\tquestion\tturn count\tmoves C\tC before N\t\
what the C turns before turn N make of what: first what events, the reader and the disk move; \
then, of each cell that the act makes anew, the cells, as the act began, that it is made of
transfers N M\tsearch\tquestion\tturn turn\ttransfers C\tN to M\t\
the functions of the disk that are done: turn, turn begun, function, drive, word, core address, \
how many words, and RKER; after 256 it ends, with 'or more' if turns are left
change N M I\tsearch\tquestion\tturn turn place\tchange T\tN to M\t\
the first turn that changes word I of the drive
change N M D I\tsearch\tquestion\tturn turn drive place\tchange T\tN to M\t\
the same of drive D, in version 2
text N from F\tsearch\tquestion\tturn position\ttext C:\tbefore N\t\
what was printed before turn N, from byte F on
punched N from F\tsearch\tquestion\tturn position\tpunched C:\tbefore N\t\
what was punched before turn N, from byte F on
when F\tsearch\tquestion\tposition\twhen T\tup to byte F\t\
the turn in which byte F was printed; the run goes on to that turn, or to turn 1000000000
translate N MODE A\tsearch\tquestion\tturn mode address\ttranslate a\tbefore N\t\
the physical address of the virtual address A before turn N, or why a read aborts
virtual N MODE A C\tsearch\tquestion\tturn mode address count\tvirtual w\tbefore N\t\
C words from the virtual address A on, before turn N, or the first that can't be read
find N A B W\tsearch\tquestion\tturn address address word\tfind C\tbefore N\t\
the words of core from A to B that are W before turn N; after 256 it ends, with 'or more' if \
there are more
find N A B W mask K\tsearch\tquestion\tturn address address word word\tfind C\tbefore N\t\
the same in the bits of K alone
finddsk N I J W\tsearch\tquestion\tturn place place word\tfinddsk C\tbefore N\t\
the words I to J of the drive that are W before turn N
finddsk N I J W mask K\tsearch\tquestion\tturn place place word word\tfinddsk C\tbefore N\t\
the same in the bits of K alone
finddsk N D I J W\tsearch\tquestion\tturn drive place place word\tfinddsk C\tbefore N\t\
the words of drive D, in version 2
finddsk N D I J W mask K\tsearch\tquestion\tturn drive place place word word\tfinddsk C\tbefore N\t\
the same in the bits of K alone
events\tsearch\tlist\t\tevents C\tnone\t\
the events of the script in their order: number, turn and EVENT
setup\tsearch\tlist\t\tsetup version V\tnone\t\
version, units, start, stride, delays in turns, and how many bytes the tape has
fades N EDIT\tsearch\tquestion\tturn edit\tfades T\tup to N\t\
the turn, up to N, from which on the run with this edit would be the run as it is; EDIT is a \
line core, disk, at, alter or drop, and isn't made
undo\tsearch\tstep\t\tok\tnone\t\
takes the last edit back, also the number of its event; version 2 and edits before it stay
redo\tsearch\tstep\t\tok\tnone\t\
makes the edit again that was taken back last, if there was no other since
"""
