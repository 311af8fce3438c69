* The guest under Hercules. It drives a line of a 2703 in Binary Synchronous Communications as an access method of a host does: ENABLE,
* READ the bid, WRITE ACK0 and READ, .., or WRITE ENQ and READ, WRITE a block and READ, .., WRITE EOT, and DISABLE.
*
* What it does is a plan: steps of two words, at PLAN in the storage.
*
*   tries and code     address                      what the guest does
*   halfword END                                    ends, in a wait state, with the code DONE in the PSW
*   halfword ENABLE                                 waits for the call, or calls
*   halfword RECEIVE   letters, see WHATNOW         receives a transmission
*   halfword SEND      entries, see NEXTENTR        sends one; gives way to the bid of the other station
*   halfword SENDFRST  the same                     sends one; passes over the bid of the other station
*   halfword DISABLE                                hangs up
*
* A step that meets so many things in a row that are no progress gives up. Each channel program that was run stands in the log, at LOG: the
* CSW, two bytes of sense, the number of bytes that were read, the address of the channel program, and those bytes, up to a doubleword.
*
* Registers: 4 where a step that gives up goes on, 5 the channel program of the last answer or block, 6 the entry in hand, 7 the tries that
* are left, 8 the letter in hand, 9 the next step, 10 the end of the log, 11 the bytes that were read, 12 the base, 13 to 15 links.
R0       EQU   0
R1       EQU   1
R2       EQU   2
R3       EQU   3
R4       EQU   4
R5       EQU   5
R6       EQU   6
R7       EQU   7
R8       EQU   8
R9       EQU   9
R10      EQU   10
R11      EQU   11
R12      EQU   12
R13      EQU   13
R14      EQU   14
R15      EQU   15
*
* The storage
*
IOOLDPSW EQU   X'38'
CSW      EQU   X'40'
CAW      EQU   X'48'
BUFFER   EQU   X'2000'
LONGEST  EQU   2048
PLAN     EQU   X'3000'
LOG      EQU   X'80000'
LINE     EQU   X'40'                  the device number of the line
*
* Bits of the status and of the sense, flags and command codes
*
DEVEND   EQU   X'04'
CHECK    EQU   X'02'
EXCEPT   EQU   X'01'
TIMEOUT  EQU   X'01'
CHAIN    EQU   X'60'                  command chaining; any length will do
LAST     EQU   X'20'
WRITE    EQU   X'01'
READ     EQU   X'02'
SENSING  EQU   X'04'
ENABLING EQU   X'27'
DISABLES EQU   X'2F'
*
         ORG   0
         DC    X'00000000',A(GUEST)   restart
         ORG   X'68'
         DC    X'0002000000000BAD'    a program interruption ends all
         ORG   X'78'
         DC    X'00000000',A(ENDED)   input or output
         ORG   X'1000'
GUEST    BALR  R12,0
         USING *,R12
         L     R9,PLANAT
         L     R10,LOGAT
         L     R11,BUFFERAT
*
* The next step of the plan
*
NEXTSTEP LH    R7,0(0,R9)
         STH   R7,TRIES
         LH    R2,2(0,R9)
         L     R8,4(0,R9)
         LR    R6,R8
         LA    R9,8(0,R9)
         MVI   GIVESWAY,1
         B     STEPS(R2)
STEPS    B     END
         B     ENABLE
         B     RECEIVE
         B     SEND
         B     SENDFRST
         B     DISABLE
*
END      LPSW  DONE
*
ENABLE   LA    R4,NEXTSTEP
         LA    R1,DOENABLE
         BAL   R14,START
         TM    STATUS,CHECK
         BZ    NEXTSTEP
         BAL   R14,TRYLESS
         B     ENABLE
*
DISABLE  LA    R1,DODISABL
         BAL   R14,START
         B     NEXTSTEP
*
* Receives a transmission: READs a bid, and answers what comes
*
RECEIVE  LA    R4,STEPOVER
         MVI   BLOCKS,0
         MVI   HELD,0
READBID  LA    R1,DOREAD
         BAL   R14,EXCHANGE
         B     BIDCAME(R15)
BIDCAME  B     NOBID                  a text
         B     BID                    ENQ
         B     NOBID                  a text that ENQ ends
         B     NOBID                  EOT
         B     NOBID                  another thing
         B     NOBID                  nothing in time
         B     NOBID                  data waited, and nothing was written
         B     STEPOVER               the line is lost
NOBID    BAL   R14,TRYLESS
         B     READBID
*
BID      MVI   ISTEXT,0
*
* The letter in hand says what is answered to a bid, to a text, and to an ENQ after a WACK. Where none is left, it is the acknowledgement.
*
WHATNOW  LH    R7,TRIES
         SR    R2,R2
         IC    R2,0(0,R8)
         LA    R8,1(0,R8)
         B     ANSWERS(R2)
ANSWERS  B     ALWAYS
         B     ACK                    the acknowledgement
         B     NAK                    a negative one
         B     WACK                   the text arrived, wait
         B     RVI                    the text arrived, please stop
         B     SILENT                 the text arrived, and nothing is said
         B     DEAF                   nothing arrived, and nothing is said
         B     EOTNOW                 EOT
         B     STEPOVER               no more of this transmission
*
ALWAYS   BCTR  R8,0
ACK      BAL   R14,TAKE
         BAL   R14,DUEACK
SAYAGAIN LR    R1,R5
HEAR     BAL   R14,EXCHANGE
         B     CAME(R15)
CAME     B     TEXTCAME               a text
         B     ENQCAME                ENQ
         B     NOTREADY               a text that ENQ ends
         B     STEPOVER               EOT
         B     ONEMORE                another thing
         B     ONEMORE                nothing in time
         B     CLEAR                  data waited, and nothing was written
         B     STEPOVER               the line is lost
*
TEXTCAME MVI   ISTEXT,1
         MVI   HELD,0
         B     WHATNOW
*
* An ENQ asks for the last answer again; after a WACK for the one that is due
*
ENQCAME  MVI   ISTEXT,0
         CLI   HELD,0
         BE    SAYAGAIN
         MVI   HELD,0
         B     WHATNOW
*
NOTREADY LA    R5,DONAK
         B     SAYAGAIN
*
ONEMORE  BAL   R14,TRYLESS
         LA    R1,DOREAD
         B     HEAR
*
* After data that waited a READ takes the condition back, and gives nothing; then the answer is said again
*
CLEAR    BAL   R14,TRYLESS
         LA    R1,DOREAD
         BAL   R14,EXCHANGE
         B     SAYAGAIN
*
NAK      LA    R5,DONAK
         CLI   ISTEXT,0
         BNE   SAYAGAIN
         MVI   HELD,1                 an ENQ after it is another bid
         B     SAYAGAIN
*
WACK     BAL   R14,TAKE
         MVI   HELD,1
         LA    R5,DOWACK
         B     SAYAGAIN
*
RVI      BAL   R14,TAKE
         LA    R5,DORVI
         B     SAYAGAIN
*
SILENT   BAL   R14,TAKE
         BAL   R14,DUEACK
DEAF     LA    R1,DOREAD
         B     HEAR
*
EOTNOW   LA    R1,DOEOT
         BAL   R14,START
         B     STEPOVER
*
* A text is taken: the next acknowledgement is the other one
*
TAKE     CLI   ISTEXT,0
         BER   R14
         XI    BLOCKS,1
         BR    R14
*
DUEACK   LA    R5,DOACK0
         CLI   BLOCKS,0
         BER   R14
         LA    R5,DOACK1
         BR    R14
*
* Sends a transmission: bids, says block after block, and EOT
*
SENDFRST MVI   GIVESWAY,0
SEND     LA    R4,STEPOVER
SAYBID   LA    R1,DOENQ
HEARBID  BAL   R14,EXCHANGE
         B     BIDHEARD(R15)
BIDHEARD B     BIDAGAIN               a text
         B     CONTEND                ENQ
         B     BIDAGAIN               a text that ENQ ends
         B     STEPOVER               EOT
         B     GRANTED                another thing: is it ACK0?
         B     BIDAGAIN               nothing in time
         B     BIDCLEAR               data waited, and nothing was written
         B     STEPOVER               the line is lost
*
BIDAGAIN BAL   R14,TRYLESS
         B     SAYBID
*
BIDCLEAR BAL   R14,TRYLESS
         LA    R1,DOREAD
         BAL   R14,EXCHANGE
         CLI   GIVESWAY,0
         BE    SAYBID
         LA    R1,DOREAD              it may be that the other's bid was lost so
         B     HEARBID
*
* Both bid: who gives way receives, with all acknowledgements, and then bids anew; who doesn't awaits his answer
*
CONTEND  CLI   GIVESWAY,0
         BE    PASSOVER
         MVI   GAVEWAY,1
         MVI   BLOCKS,0
         MVI   HELD,0
         LA    R8,ALLACKS
         B     BID
PASSOVER BAL   R14,TRYLESS
         LA    R1,DOREAD
         B     HEARBID
*
GRANTED  CLC   0(2,R11),ACK0
         BNE   BIDAGAIN
         LA    R4,SAYEOT
         MVI   BLOCKS,1
*
* An entry has three words: its kind, a channel program, and the one that is run in its place after a NAK
*
NEXTENTR LH    R7,TRIES
         L     R2,0(0,R6)
         L     R5,4(0,R6)
         B     KINDS(R2)
KINDS    B     SAYEOT                 none is left
         B     SAYBLOCK               a block, which an acknowledgement counts
         B     RUNIT                  anything: it is run once
         B     STEPOVER               no more of this transmission
*
RUNIT    LR    R1,R5
         BAL   R14,EXCHANGE
         LA    R6,12(0,R6)
         B     NEXTENTR
*
SAYBLOCK LR    R1,R5
HEARANSW BAL   R14,EXCHANGE
         B     HEARD(R15)
HEARD    B     ASK                    a text
         B     ASK                    ENQ
         B     ASK                    a text that ENQ ends
         B     STEPOVER               EOT
         B     ANSWER                 another thing: which?
         B     ASK                    nothing in time
         B     SAYCLEAR               data waited, and nothing was written
         B     STEPOVER               the line is lost
*
ANSWER   CLC   0(2,R11),WACKCODE
         BE    ASKWAIT
         CLI   BLOCKS,0
         BE    EVEN
         CLC   0(2,R11),ACK1
         BE    COUNTED
         B     REPEAT
EVEN     CLC   0(2,R11),ACK0
         BE    COUNTED
*
REPEAT   L     R5,8(0,R6)             NAK, or an acknowledgement of the block before
         BAL   R14,TRYLESS
         B     SAYBLOCK
*
ASK      BAL   R14,TRYLESS
ASKWAIT  LA    R1,DOENQ
         B     HEARANSW
*
SAYCLEAR BAL   R14,TRYLESS
         LA    R1,DOREAD
         BAL   R14,EXCHANGE
         B     SAYBLOCK
*
COUNTED  XI    BLOCKS,1
         LA    R6,12(0,R6)
         B     NEXTENTR
*
SAYEOT   LA    R1,DOEOT
         BAL   R14,START
*
* A step is over; a transmission that was received in between leads back to the own bid
*
STEPOVER CLI   GAVEWAY,0
         BE    NEXTSTEP
         MVI   GAVEWAY,0
         LA    R4,STEPOVER
         LH    R7,TRIES
         B     SAYBID
*
* One try less; after the last one the step gives up
*
TRYLESS  BCTR  R7,0
         LTR   R7,R7
         BNZR  R14
         BR    R4
*
* Runs the channel program at register 1, and says in register 15 what came of it, as a place in the tables above
*
EXCHANGE ST    R14,EXBACK
         BAL   R14,START
         TM    STATUS,CHECK
         BZ    ISREAD
         LA    R15,NOTHING
         TM    SENSE,TIMEOUT
         BNZ   EXOVER
         LA    R15,LOST
         B     EXOVER
*
* Which of its commands was the last? The CSW has the address behind it
*
ISREAD   L     R2,KEPTCSW
         LA    R2,0(0,R2)
         S     R2,EIGHT
         LA    R15,WAITED
         CLI   0(R2),READ
         BNE   ISWRITE
         LH    R3,6(0,R2)
         SH    R3,RESIDUAL
         LA    R15,NOTHING
         LTR   R3,R3
         BZ    EXOVER
         BAL   R14,KEEP
         B     WHATCAME
*
* A channel program that ends in a WRITE is over, but for data that waited
*
ISWRITE  TM    STATUS,EXCEPT
         BNZ   EXOVER
         LA    R15,OTHER
         B     EXOVER
*
WHATCAME LA    R15,EOT
         TM    STATUS,EXCEPT
         BNZ   EXOVER
         LR    R2,R11
         AR    R2,R3
         BCTR  R2,0                   the last byte
         CLI   0(R2),X'2D'
         BE    ISENQ
         LA    R15,TEXT
         CLI   0(R2),X'03'
         BE    EXOVER
         CLI   0(R2),X'26'
         BE    EXOVER
         LA    R15,OTHER
         B     EXOVER
*
ISENQ    LA    R15,TEXTENQ
         CLI   0(R11),X'02'
         BE    EXOVER
         CLC   0(2,R11),DLESTX
         BE    EXOVER
         LA    R15,ENQ
EXOVER   L     R14,EXBACK
         BR    R14
*
* Keeps in the log the bytes that were read, as many as register 3 says
*
KEEP     LR    R2,R10
         SH    R2,SIXTEEN
         STH   R3,10(0,R2)
         ST    R3,COUNT
         LR    R2,R11
KEEPONE  MVC   0(1,R10),0(R2)
         LA    R2,1(0,R2)
         LA    R10,1(0,R10)
         BCT   R3,KEEPONE
         L     R3,COUNT
         LA    R10,7(0,R10)
         N     R10,DOUBLES
         BR    R14
*
* Runs the channel program at register 1 to its end; a unit check asks for the sense
*
START    ST    R1,CAW
         ST    R1,12(0,R10)
         BAL   R13,RUN
         MVC   KEPTCSW(8),CSW
         MVC   0(8,R10),CSW
         XC    SENSE(2),SENSE
         TM    STATUS,CHECK
         BZ    STARTED
         LA    R2,DOSENSE
         ST    R2,CAW
         BAL   R13,RUN
STARTED  MVC   8(2,R10),SENSE
         XC    10(2,R10),10(R10)
         LA    R10,16(0,R10)
         BR    R14
*
* Starts the input or output that the CAW names, and waits for its interruption. What is over at once stores its status without an address
*
RUN      XC    CSW(8),CSW
STARTIO  SIO   LINE
         BC    8,RUNWAIT
         BC    2,STARTIO
         BCR   4,R13
         LPSW  NOLINE
RUNWAIT  LPSW  WAITS
ENDED    CLC   IOOLDPSW+2(2),LINENUM
         BNE   RUNWAIT
         TM    CSW+4,DEVEND
         BZ    RUNWAIT
         BR    R13
*
* What came of a channel program, as a place in a table
*
TEXT     EQU   0
ENQ      EQU   4
TEXTENQ  EQU   8
EOT      EQU   12
OTHER    EQU   16
NOTHING  EQU   20
WAITED   EQU   24
LOST     EQU   28
*
* Values
*
WAITS    DS    0D
         DC    X'FE02000000000000'    a wait state that an interruption ends
DONE     DC    X'000200000000C0DE'
NOLINE   DC    X'0002000000000333'
KEPTCSW  DC    F'0'
STATUS   DC    X'0000'                of the unit and of the channel
RESIDUAL DC    X'0000'
PLANAT   DC    A(PLAN)
LOGAT    DC    A(LOG)
BUFFERAT DC    A(BUFFER)
EIGHT    DC    F'8'
DOUBLES  DC    X'FFFFFFF8'
EXBACK   DC    F'0'
COUNT    DC    F'0'
SIXTEEN  DC    H'16'
TRIES    DC    H'0'
LINENUM  DC    H'64'                  the same, in storage
SENSE    DC    X'0000'
ACK0     DC    X'1070'
ACK1     DC    X'1061'
WACKCODE DC    X'106B'
DLESTX   DC    X'1002'
BLOCKS   DC    X'00'                  whether the blocks so far are an odd number
ISTEXT   DC    X'00'                  whether what is answered is a text
HELD     DC    X'00'                  whether an ENQ is to get another answer than the last one
GIVESWAY DC    X'00'                  whether it gives way to another bid
GAVEWAY  DC    X'00'                  whether it has, and bids anew afterwards
ALLACKS  DC    X'00'
THERVI   DC    X'107C'
THENAK   DC    X'3D'
THEENQ   DC    X'2D'
THEEOT   DC    X'37'
*
* Channel programs
*
DOENABLE CCW   ENABLING,ALLACKS,LAST,1
DODISABL CCW   DISABLES,ALLACKS,LAST,1
DOSENSE  CCW   SENSING,SENSE,LAST,2
DOREAD   CCW   READ,BUFFER,LAST,LONGEST
DOACK0   CCW   WRITE,ACK0,CHAIN,2
         CCW   READ,BUFFER,LAST,LONGEST
DOACK1   CCW   WRITE,ACK1,CHAIN,2
         CCW   READ,BUFFER,LAST,LONGEST
DOWACK   CCW   WRITE,WACKCODE,CHAIN,2
         CCW   READ,BUFFER,LAST,LONGEST
DORVI    CCW   WRITE,THERVI,CHAIN,2
         CCW   READ,BUFFER,LAST,LONGEST
DONAK    CCW   WRITE,THENAK,CHAIN,1
         CCW   READ,BUFFER,LAST,LONGEST
DOENQ    CCW   WRITE,THEENQ,CHAIN,1
         CCW   READ,BUFFER,LAST,LONGEST
DOEOT    CCW   WRITE,THEEOT,LAST,1
