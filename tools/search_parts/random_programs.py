"""Small programs with statements and traps of all kinds, drawn at random, and always the same."""
import re
from random import Random

HOW_MANY, HOW_MANY_TRIES, SEED = 200, 120, 1

# What each part may be, behind how often that is drawn: of programs with all that the language has.
ALL = """
program: 3 processes 2 ; names begin first first some some last end
program: 3 processes 2 ; names begin first first some some some last end
program: 2 processes 2 ; names begin first some some some some some last end
program: 2 processes 3 ; names begin first some some last end | 1 processes 3 ; names begin first first some last end
names: 1 var x , y ; scan s , t ; reg r , q ;
first: 2 stamp ; | 2 put row ( me + 1 ) ; | 1 taken = scan ; | 1 if me { first } else { some }
last: 3 out ( 1 / test ) ; | 1 x = get row process ; out ( x - y ) ; | 1 x = get row process ; y = older taken x y ;
last: 1 some
some: 1 variable = expression ; | 1 variable = test ; | 1 variable = risky ; | 3 variable = get row process ;
some: 3 put row expression ; | 4 stamp ; | 2 clear ; | 4 taken = scan ; | 1 t = copy s ; | 1 s = copy t ;
some: 3 variable = older taken process process ; | 2 variable = held taken process ; | 1 out expression ;
some: 1 out ( 1 / test ) ; | 2 if test block else block | 1 if me block else block
some: 2 taken = scan ; x = older taken process process ; if x block else block
some: 2 taken = scan ; x = held taken process ; if x block else block | 1 while test block
some: 1 while ( x < 2 ) { some x = ( x + 1 ) ; } | 1 while ( y == 0 ) { y = get row process ; }
some: 1 while x { s = scan ; x = older s process me ; }
block: 2 { } | 5 { some } | 1 { some some }
variable: 1 x | 1 y
taken: 2 s | 1 t
row: 3 r | 1 q
process: 3 me | 2 0 | 2 1 | 2 ( n - 1 ) | 4 ( ( me + 1 ) % n ) | 1 variable | 1 expression
test: 3 variable | 3 ( variable compared expression ) | 1 expression
compared: 1 < | 1 <= | 2 == | 2 !=
expression: 8 variable | 8 number | 2 me | 1 n | 3 ( expression operator expression )
expression: 2 ( expression compared expression ) | 1 ( risky operator risky )
risky: 1 ( 1 / variable ) | 1 ( n % variable ) | 1 ( variable - 1 ) | 2 ( 4294967295 + variable )
risky: 1 ( 65536 * ( 65535 + variable ) )
number: 2 0 | 4 1 | 1 2
operator: 1 + | 1 - | 1 * | 1 / | 1 %
"""
# The same of programs that wait, try again, or never get on.
TRIES = """
program: 4 processes 2 ; names begin tries end | 2 processes 3 ; names begin tries end | 2 processes 3 ; names begin helped end
names: 1 var x , y , z ; scan s ; reg r , q ;
tries: 2 try | 2 move try | 2 try move | 1 try try | 3 if me { tries } else { tries }
tries: 2 if ( me == 1 ) { tries } else { tries } | 1 if me { move } else { tries } | 1 if me { while 1 { move } } else { tries }
helped: 1 if ( me == 2 ) { put q 1 ; } else { if me { while ( y == 0 ) { move y = get q 2 ; } } else { try } }
try: 2 while ( y == 0 ) { move y = get row process ; } | 2 while ( y == 0 ) { y = get row process ; }
try: 3 while ( x == 0 ) { stamp ; s = scan ; x = older s process me ; }
try: 4 x = 1 ; y = 0 ; while ( x != y ) { x = y ; y = get r process ; }
try: 2 put r 1 ; y = get r process ; while y { put r 0 ; put r 1 ; y = get r process ; } put r 0 ;
try: 2 put r 1 ; y = get r process ; while y { y = get r process ; } put r 0 ;
try: 2 stamp ; y = 1 ; while y { s = scan ; y = older s process me ; x = held s process ; y = ( x * y ) ; } clear ;
move: 2 put row number ; | 4 z = ( 1 - z ) ; put row z ; | 1 stamp ; | 1 clear ;
row: 3 r | 1 q
process: 3 ( ( me + 1 ) % n ) | 1 ( n - 1 ) | 1 0
number: 1 0 | 3 1
"""


def texts(table=ALL, how_many=HOW_MANY):
    """Each with a line feed behind each statement and bracket."""
    random, parts = Random(SEED), {}
    for part, _, lines in (line.partition(": ") for line in table.strip().split("\n")):
        for times, *symbols in map(str.split, lines.split(" | ")):
            parts.setdefault(part, []).extend([symbols] * int(times))

    def drawn(symbol):
        if symbol not in parts:
            return [symbol]
        # (of all that draws, this alone draws the same in each version of Python)
        return [word for inner in parts[symbol][int(random.random() * len(parts[symbol]))] for word in drawn(inner)]

    return [re.sub("(?<=[;{}]) |(?<=begin) ", "\n", " ".join(drawn("program"))).encode() + b"\n" for _ in range(how_many)]


def tries():
    return texts(TRIES, HOW_MANY_TRIES)
