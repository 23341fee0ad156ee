"""The inputs of the measurements: a plate, programs and logs, generated each time from fixed seeds."""
import random

PLATE = 'unit = "kg"\ndecimals = 3\nmax = 15000\ne = 5\nzero_counts = 10000\nspan_counts = 600000\nwindow = 4\n'

COPY = "PROGRAM Copy\nLD %IX0.0\nST %QX0.0\nEND_PROGRAM\n"

# two feeds into a container, with a block of the text, timers, counters, arithmetic and parentheses
FILLING = """FUNCTION_BLOCK Gate
VAR_INPUT open, close : BOOL; settle : TIME; END_VAR
VAR_OUTPUT moving : BOOL; strokes : DINT; END_VAR
VAR latch : SR; delay : TON; edge : R_TRIG; END_VAR
CAL latch(S1 := open, R := close)
CAL delay(IN := latch.Q1, PT := settle)
LD delay.Q
ST moving
CAL edge(CLK := moving)
LD edge.Q
RETCN
LD strokes
ADD 1
ST strokes
END_FUNCTION_BLOCK
PROGRAM Filling
VAR coarse, fine : Gate; batches : CTU; lamp : TOF; target : DINT := 4000; missing, cycle : DINT; hungry : BOOL; END_VAR
LD target
SUB %ID1
ST missing
GT 800
AND %IX1.5
AND( %IX0.0
OR hungry
)
ST hungry
CAL coarse(open := hungry, close := %IX0.1, settle := T#30ms)
LD missing
GT 0
AND(
LD %IX0.2
OR %IX0.3
ANDN %IX1.1
)
CAL fine(open := %IX0.2, close := %IX0.1, settle := T#10ms)
LD fine.moving
ST %QX0.1
LD coarse.moving
ST %QX0.0
JMPCN rest
LD cycle
MUL 5
ADD 3
MOD 997
ST cycle
ST %QD2
rest: CAL lamp(IN := %IX0.0, PT := T#40ms)
LD lamp.Q
ST %QX0.2
LD %IX1.0
CALC batches(CU := %IX0.4, R := %IX0.5, PV := 50)
LD batches.CV
ST %QD3
LD missing
ST %QD0
LD coarse.strokes
ADD fine.strokes
ST %QD1
END_PROGRAM
"""


def logic(lines, variables, seed=1):
    """A program of BOOL logic: `lines` lines over `variables` variables, the inputs and the outputs."""
    chance = random.Random(seed)
    names = [f"signal_{number}" for number in range(variables)]
    body = []
    while len(body) < lines:
        read = lambda: chance.choice([chance.choice(names), f"%IX0.{chance.randrange(16)}", f"%QX0.{chance.randrange(16)}"])
        body += [f"{chance.choice(['LD', 'LDN'])} {read()}"]
        body += [f"{chance.choice(['AND', 'OR', 'XOR', 'ANDN'])} {read()}" for _ in range(chance.randrange(1, 5))]
        body += [f"{chance.choice(['ST', 'STN'])} {chance.choice(names + ['%QX0.3'])}"]
    declared = "".join(f"{name} : BOOL;\n" for name in names)
    return f"PROGRAM Logic\nVAR\n{declared}END_VAR\n" + "\n".join(body[:lines]) + "\nEND_PROGRAM\n"


def calls(blocks, rounds):
    """A program that calls `blocks` instances of a block of the text in each scan; the block's body repeats its lines `rounds` times."""
    body = ""
    for number in range(rounds):
        body += "LD n\nADD 7\nST n\nGT m\nST a\nAND( b\nOR go\n)\nXOR c\nST c\nLD m\nSUB n\nMUL 3\nST m\nLD a\n"
        body += f"JMPC next_{number}\nLDN b\nnext_{number}: ST b\nS out\nR c\n"
    instances = ", ".join(f"worker_{number}" for number in range(blocks))
    return (
        "FUNCTION_BLOCK Worker\nVAR_INPUT go : BOOL; END_VAR\nVAR_OUTPUT out : BOOL; END_VAR\n"
        f"VAR a, b, c : BOOL; n, m : DINT; END_VAR\n{body}END_FUNCTION_BLOCK\n"
        f"PROGRAM Calls\nVAR {instances} : Worker; END_VAR\n"
        + "".join(f"CAL worker_{number}\n" for number in range(blocks))
        + "LD worker_0.out\nST %QX0.0\nEND_PROGRAM\n"
    )


def standard_blocks(blocks, rounds):
    """A program that calls `blocks` instances of a block of the text in each scan, whose body calls the standard blocks `rounds` times."""
    body = "LD TRUE\n" + rounds * (
        "CALC on(IN := q, PT := T#5ms)\nCAL off(IN := on.Q, PT := T#7ms)\nCAL edge(CLK := off.Q)\n"
        "CAL count(CU := edge.Q, PV := 9)\nLD count.Q\nNOT\nST q\n"
    )
    instances = ", ".join(f"timing_{number}" for number in range(blocks))
    return (
        "FUNCTION_BLOCK Timing\nVAR_OUTPUT out : BOOL; END_VAR\n"
        f"VAR on : TON; off : TOF; edge : R_TRIG; count : CTU; q : BOOL; END_VAR\n{body}LD q\nST out\nEND_FUNCTION_BLOCK\n"
        f"PROGRAM Timings\nVAR {instances} : Timing; END_VAR\n"
        + "".join(f"CAL timing_{number}\n" for number in range(blocks))
        + "LD timing_0.out\nST %QX0.0\nEND_PROGRAM\n"
    )


def nested(units, lines=160):
    """A text of blocks, each of which has an instance of the one before."""
    text = ""
    for unit in range(units):
        inner = f" inner : Level_{unit - 1};" if unit else ""
        text += f"FUNCTION_BLOCK Level_{unit}\nVAR_INPUT" + "".join(f" input_{i} : DINT;" for i in range(40)) + " END_VAR\n"
        text += "VAR_OUTPUT" + "".join(f" output_{i} : DINT;" for i in range(40)) + f" END_VAR\nVAR t : TON; b : BOOL;{inner} END_VAR\n"
        for i in range(lines):
            text += f"LD input_{i % 40}\nADD 16#{i:X}\nST output_{i % 40}\nGT {i}\nST b\n"
            text += f"JMPC L{i}\nCAL t(IN := b, PT := T#{i}ms)\nL{i}:\n" if i % 4 == 0 else ""
        text += "END_FUNCTION_BLOCK\n"
    return text + f"PROGRAM Outer\nVAR first : Level_0; last : Level_{units - 1}; END_VAR\nCAL first\nCAL last\nEND_PROGRAM\n"


def filled(text, size=65536):
    """The text after a comment that pads it to `size` bytes."""
    return f"(*{'x' * (size - len(text) - 5)}*)\n{text}" if len(text) + 5 <= size else text


def row(kind, ms, number):
    """A row of a kind at a time in milliseconds."""
    data = {
        "C": f"{110000 + number * 7919 % 400}",
        "I": f"{number * 7919 % 65536:04x}",
        "L": "0a570d" if number % 3 else "0a4d0d0a57",
        "S": "",
    }[kind]
    return f"{ms},{kind},{data}\n"


def log(kinds, rows):
    """A log of `rows` rows, which cycle through these kinds."""
    yield "ms,kind,data\n"
    for number in range(rows):
        yield row(kinds[number % len(kinds)], number * 3, number)

# lines of each kind: a title, the text of one round, the counted items of a round, and the lines before the first round
STEPS = [
    ("LD of an input bit", "LD %IX0.0\n", 1, ""),
    ("AND of a variable", "AND a\n", 1, "LD %IX0.0\n"),
    ("ST to an output bit", "ST %QX0.0\n", 1, "LD %IX0.0\n"),
    ("S to a variable", "S a\n", 1, "LD %IX0.0\n"),
    ("NOT", "NOT\n", 1, "LD %IX0.0\n"),
    ("ADD of a variable", "ADD n\n", 1, "LD n\n"),
    ("MUL of a literal", "MUL 3\n", 1, "LD n\n"),
    ("DIV by a literal", "DIV 3\n", 1, "LD n\n"),
    ("LD and GT", "LD n\nGT 5\n", 2, ""),
    ("AND( and )", "AND(\nLD a\n)\n", 3, "LD %IX0.0\n"),
    ("a jump that acts, and LD", "JMP L{n}\nL{n}: LD a\n", 2, ""),
    ("a call of an empty block", "CAL empty\n", 1, ""),
    ("a call with an input and an output", "CAL block(i := a, o => b)\n", 3, ""),
    ("a call of R_TRIG", "CAL edge\n", 2, ""),
    ("a call of SR", "CAL latch\n", 2, ""),
    ("a call of CTU", "CAL count\n", 2, ""),
    ("a call of TON, IN FALSE", "CAL on\n", 2, ""),
    ("a call of TON, IN TRUE", "CAL on\n", 2, "LD TRUE\nST on.IN\n"),
    ("a call of TOF, IN FALSE", "CAL off\n", 2, ""),
    ("a call of TP, IN TRUE", "CAL pulse\n", 2, "LD TRUE\nST pulse.IN\n"),
]


def steps(line, first, rounds):
    """A program of `rounds` rounds of a line; it declares the variables and blocks of all lines."""
    blocks = (
        "FUNCTION_BLOCK Empty\nEND_FUNCTION_BLOCK\n"
        "FUNCTION_BLOCK Block\nVAR_INPUT i : BOOL; END_VAR\nVAR_OUTPUT o : BOOL; END_VAR\nEND_FUNCTION_BLOCK\n"
    )
    names = (
        "VAR a, b : BOOL; n : DINT := 7; empty : Empty; block : Block; edge : R_TRIG; latch : SR; count : CTU; on : TON; off : TOF; pulse : TP; END_VAR\n"
    )
    body = "".join(line.replace("{n}", str(number)) for number in range(rounds))
    return f"{blocks}PROGRAM P\n{names}{first}{body}END_PROGRAM\n"
