The blocks of the disk that have text. A block is 16 lines of 64 characters; tools/make forth puts
each after a line `block N` on the disk as block N. The kernel loads block 8 when it has been booted.

block 8
: ( 41 PARSE 2DROP ; IMMEDIATE ( a comment, up to the bracket )
( A word that is IMMEDIATE runs while others compile. These )
( compile a jump, and leave where its target goes and a number )
( by which the word that completes the pair knows it. )
: IF     ?COMP COMPILE 0BRANCH HERE 0 , 2 ; IMMEDIATE
: THEN   ?COMP 2 ?PAIRS HERE SWAP ! ; IMMEDIATE
: ELSE   ?COMP 2 ?PAIRS COMPILE BRANCH HERE 0 , SWAP HERE SWAP !
   2 ; IMMEDIATE
: BEGIN  ?COMP HERE 1 ; IMMEDIATE
: UNTIL  ?COMP 1 ?PAIRS COMPILE 0BRANCH , ; IMMEDIATE
: AGAIN  ?COMP 1 ?PAIRS COMPILE BRANCH , ; IMMEDIATE
: WHILE  ?COMP 1 ?PAIRS COMPILE 0BRANCH HERE 0 , 4 ; IMMEDIATE
: REPEAT ?COMP 4 ?PAIRS COMPILE BRANCH SWAP , HERE SWAP ! ;
   IMMEDIATE
9 LOAD 10 LOAD 11 LOAD 12 LOAD 13 LOAD 14 LOAD

block 9
( Loops that count, constants, variables, texts )
: DO     ?COMP COMPILE (DO) HERE 0 , 3 ; IMMEDIATE
: ENDED  DUP 2 + , HERE SWAP ! ; ( LEAVE goes to where DO says )
: LOOP   ?COMP 3 ?PAIRS COMPILE (LOOP) ENDED ; IMMEDIATE
: +LOOP  ?COMP 3 ?PAIRS COMPILE (+LOOP) ENDED ; IMMEDIATE
: [']    ' COMPILE LIT , ; IMMEDIATE
: CONSTANT CREATE , DOES> @ ;    : VARIABLE CREATE 0 , ;
32 CONSTANT BL           : CHAR TOKEN DROP WRITTEN 1+ C@ ;
: [CHAR] CHAR COMPILE LIT , ; IMMEDIATE
: STRING, ( address count -- ) DUP C, HERE OVER ALLOT SWAP MOVE
   ALIGN ;
: TEXT,  34 PARSE STRING, ;
: ."     STATE @ IF COMPILE (.") TEXT, ELSE 34 PARSE TYPE THEN ;
   IMMEDIATE
: ABORT" ?COMP COMPILE (ABORT") TEXT, ; IMMEDIATE

block 10
: \ ( a comment, up to the end of the line )
   BLK @ IF >IN @ 63 + -64 AND ELSE 255 THEN >IN ! ; IMMEDIATE
\ Numbers
: /   /MOD NIP ;                 : MOD /MOD DROP ;
: <>  = 0= ;    : 0>  0 > ;      : U> SWAP U< ;
: MIN 2DUP > IF SWAP THEN DROP ;
: MAX 2DUP < IF SWAP THEN DROP ;
: DECIMAL 10 BASE ! ;            : OCTAL   8 BASE ! ;
: HEX     16 BASE ! ;            : BINARY  2 BASE ! ;
: SPACES  0 MAX ?DUP IF 0 DO SPACE LOOP THEN ;
: .R  ( number width -- ) >R DUP ABS <# #S SWAP SIGN #>
   R> OVER - SPACES TYPE ;
: U.R ( number width -- ) >R <# #S #> R> OVER - SPACES TYPE ;
: .S  ( shows the stack, the upper end last )
   DEPTH ?DUP IF 0 DO DEPTH I - 1- PICK . LOOP THEN ;
: ERASE 0 FILL ;    : BLANK BL FILL ;    : ? @ . ;

block 11
\ The dictionary
VARIABLE COLUMN
: .NAME ( header -- ) 2 + COUNT 31 AND TYPE SPACE ;
: WORDS CR 0 COLUMN ! LATEST @ BEGIN DUP WHILE
   DUP 2 + C@ 31 AND 1+ DUP COLUMN @ + 72 >
   IF CR 0 COLUMN ! THEN COLUMN +! DUP .NAME @ REPEAT DROP ;
: FORGET ( the word and all later ones; a task of them ends )
   ' DROP HEADER DUP FENCE U< ABORT" the kernel has it"
   DUP TASK @ U< IF 0 TASK ! THEN DUP DP ! @ LATEST ! ;
: .BYTE ( a byte as a character, or a point )
   127 AND DUP BL < OVER 127 = OR IF DROP 46 THEN EMIT ;
: DUMP ( address count -- words, in BASE, and bytes )
   OVER + SWAP -2 AND BEGIN 2DUP SWAP U< WHILE
   CR DUP 6 U.R 58 EMIT 16 0 DO DUP I + @ 7 U.R 2 +LOOP
   2 SPACES 16 0 DO DUP I + C@ .BYTE LOOP 16 + REPEAT 2DROP ;

block 12
\ SEE NAME shows a definition: address and word, one a line
: NAMED ( code -- header, or 0 ) >R LATEST @ BEGIN DUP WHILE
   DUP >CODE R@ = IF R> DROP EXIT THEN @ REPEAT R> DROP ;
VARIABLE REACH ( where the farthest jump so far goes )
: .CODE ( code -- ) DUP NAMED ?DUP IF .NAME DROP ELSE U. THEN ;
: JUMP? ['] 0BRANCH OVER = OVER ['] BRANCH = OR
   OVER ['] (LOOP) = OR OVER ['] (+LOOP) = OR
   SWAP ['] (DO) = OR ;
: .AFTER ( thread code -- thread after what belongs to it )
   DUP ['] LIT = IF DROP DUP ? 2 + EXIT THEN
   DUP ['] COMPILE = IF DROP DUP @ .CODE 2 + EXIT THEN
   DUP JUMP? IF DROP DUP @ DUP U. REACH @ MAX REACH ! 2 + EXIT
   THEN DUP ['] (.") = SWAP ['] (ABORT") = OR IF
   COUNT 2DUP TYPE 34 EMIT + 1+ -2 AND THEN ;
15 LOAD

block 15
: .STEP ( thread -- the next step ) CR DUP U. DUP @ DUP .CODE
   SWAP 2 + SWAP .AFTER ;
: SEE ' DUP 2 + @ ['] EXIT 2 + = 0= ABORT" it is code" 0 REACH !
   4 + BEGIN DUP >R .STEP R> @ ['] EXIT = OVER REACH @ U> AND
   UNTIL DROP ;

block 13
\ Time: the clock ticks 60 times a second
: MS ( milliseconds -- ) 3 50 */ 1+ TICKS @ + BEGIN
   TICKS @ OVER - 0< WHILE IDLE REPEAT DROP ;
\ An editor of lines for the block that was listed last, SCR
VARIABLE SCR
: -TRAILING ( address count -- address less )
   BEGIN DUP IF 2DUP + 1- C@ 33 < ELSE 0 THEN WHILE 1- REPEAT ;
: LINE ( number -- address ) DUP 15 U> ABORT" lines are 0 to 15"
   64 * SCR @ BLOCK + ;
: LIST ( block -- ) ?BLOCK DUP SCR ! CR ." block " .
   16 0 DO CR I 2 .R SPACE I LINE 64 -TRAILING TYPE LOOP ;
: L SCR @ LIST ;
: N 1 SCR +! L ;          : B -1 SCR +! L ;

block 14
\ More of the editor: what it changes, FLUSH writes to the disk
: PUT ( line -- ) \ the rest of what is typed becomes this line
   13 PARSE 64 MIN ROT LINE DUP 64 BLANK SWAP MOVE UPDATE ;
: BELOW ( line -- count ) \ of the bytes in the lines after it
   15 SWAP - 64 * ;
: DEL ( line -- ) \ the lines after it move up
   DUP LINE DUP 64 + SWAP ROT BELOW MOVE
   15 LINE 64 BLANK UPDATE ;
: INS ( line -- ) \ the lines from it on move down
   DUP DUP LINE DUP 64 + ROT BELOW MOVE PUT ;
: WIPE SCR @ BUFFER 1024 BLANK UPDATE ;
: COPY ( from to -- ) ?BLOCK SAVE-BUFFER SWAP BLOCK DROP
   BUFBLK ! UPDATE SAVE-BUFFER ;

block 16
\ Notes, and a task of the clock that counts: 16 LOAD
\ Block 20 and up have a note each. Block 30 has a count.
: NOTE ( block -- ) \ what is typed is its first line
   BLOCK DUP 64 BLANK CR 64 ACCEPT DROP UPDATE FLUSH ;
: NOTES ( from to -- ) \ shows the first lines of the blocks
   1+ SWAP DO CR I 3 .R SPACE I BLOCK 64 -TRAILING TYPE LOOP ;
: COUNTING ( -- ) \ at each 256th tick, every four seconds
   TICKS @ 255 AND 0= IF 1 30 BLOCK +! UPDATE THEN ;
: START ['] COUNTING TASK ! ;
: STOP 0 TASK ! ;

block 17
\ The primes below a number, up to 1000: 17 LOAD 100 PRIMES
CREATE SIEVE 1000 ALLOT
: CROSS ( prime -- ) \ crosses out what it divides
   1000 OVER DUP + DO 0 I SIEVE + C! DUP +LOOP DROP ;
: PRIMES ( number -- ) 1000 MIN SIEVE 1000 1 FILL CR
   2 DO I SIEVE + C@ IF I . I 500 < IF I CROSS THEN THEN LOOP ;
