"""The words of kcas.h, in lower case; each has the number of its place, from 1 on. tools/header.py compares them."""

VERBS = (
    "say get set xchg swap cas add incr decr update modify check differs push pop popw top enq deq deqw front put find del"
    " cput cputw cget cdel mput mtake mpeek resolve await resolved bump total len pushw enqw putw"
).split()
KINDS = "loc stack queue table grow cache mvar promise acc".split()
FUNCTIONS = "add max min and or xor".split()
RELATIONS = "eq ne lt le gt ge".split()
REPLIES = "unit value bool empty full".split()
