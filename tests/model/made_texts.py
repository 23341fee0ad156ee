"""Makes texts of programs: accepted ones over the whole language, and ones with a mistake in them."""
from .tables import STANDARD

NUMBERS = ["0", "1", "2", "5", "-1", "+1", "-7", "10", "100", "16#FF", "2#1010_0101", "8#17", "1_000", "007", "2147483647", "-2147483648", "16#7FFFFFFF", "-0"]
DURATIONS = ["T#0s", "T#1ms", "T#20ms", "T#100ms", "t#1.5s", "T#-5s", "TIME#1m_30s", "T#24d20h31m23s647ms", "T#-24d20h31m23s648ms", "T#0.1h", "T#1_0ms"]
BITS = ["TRUE", "FALSE", "BOOL#0", "BOOL#1", "true"]
LITERALS = {"BOOL": BITS, "DINT": NUMBERS, "TIME": DURATIONS}
READ = {
    "BOOL": ["%IX0.0", "%IX0.1", "%I0.2", "%IX0.15", "%IX1.0", "%IX1.1", "%IX1.2", "%IX1.3", "%IX1.4", "%IX1.5", "%QX0.0", "%Q0.1"],
    "DINT": ["%ID0", "%ID1", "%ID2", "%QD0", "%QD3"],
    "TIME": [],
}
WRITTEN = {"BOOL": ["%QX0.0", "%QX0.1", "%Q0.2", "%QX0.9", "%QX0.15"], "DINT": ["%QD0", "%QD1", "%QD2", "%QD3"], "TIME": []}
WRONG = (
    "! # = > ' { (*) (* *) __a a_ _ abcdefghijklmnopqrstuvwxyz_0123456 2147483648 16#80000000 1.5 5a - + BOOL#2 INT#5 T# T#5 T#1h60m "
    "T#1s2m T#1.0005s T#1d25h T#0000000000001s % %IX %IX0.16 %IX1.6 %I1.3 %ID3 %QD4 %QX0.01 %MX0.0 %ID %Q0.15 %D0 ( ) , : ; . := => & &N LD LDN ST STN S R "
    "AND OR XORN ADD MUL DIV MOD EQ GT NOT RET RETC JMP JMPC JMPCN CAL CALC CALCN PROGRAM END_PROGRAM FUNCTION_BLOCK END_FUNCTION_BLOCK VAR VAR_INPUT "
    "VAR_OUTPUT END_VAR BOOL DINT TIME INT TON TOF TP CTU CTD R_TRIG SR RS FUNCTION CONSTANT AT TRUE FALSE Q IN PT ET CV M run L0 b0 B0 P 0 1 2 T#1s BOOL#1"
).split() + ["\n", "\n\n"]


class Maker:
    """Makes one unit; `texts` are its lines so far, `names` its variables by what may be done with them."""

    def __init__(self, chance, closed, name, keyword):
        self.chance, self.closed, self.name, self.keyword = chance, closed, name, keyword
        self.lines, self.read, self.written = [], {}, {}
        self.instances, self.open_labels, self.label_number = {}, [], 0
        for kind in LITERALS:
            self.read[kind] = list(READ[kind]) if keyword == "PROGRAM" else []
            self.written[kind] = list(WRITTEN[kind]) if keyword == "PROGRAM" else []

    def section(self, section, prefix, most):
        """A section with plain variables; gives their names and types."""
        found, lines = {}, []
        for number in range(self.chance.randrange(most + 1)):
            kind, name = self.chance.choice(list(LITERALS)), f"{prefix}{number}"
            value = self.chance.choice(LITERALS[kind] + (["0", "1"] if kind == "BOOL" else []))
            names = [name] if self.chance.random() < 0.8 else [name, f"{name}x"]
            found.update({one: kind for one in names})
            lines.append(" , ".join(names) + f" : {kind}" + (f" := {value}" if self.chance.random() < 0.5 else "") + " ;")
        for name, kind in found.items():
            self.read[kind].append(name)
            if section != "VAR_INPUT":
                self.written[kind].append(name)
        if lines:
            self.lines.append(self.chance.choice([" ", "\n"]).join([section, *lines, "END_VAR"]))
        return found

    def instance_section(self):
        """A section with instances."""
        kinds = {**{name: block[:2] for name, block in STANDARD.items()}, **self.closed}
        lines = []
        for number in range(self.chance.randrange(5)):
            kind, name = self.chance.choice(list(kinds)), f"i{number}"
            self.instances[name] = kinds[kind]
            lines.append(f"{name} : {kind} ;")
            for field, of in kinds[kind][0].items():
                self.written[of].append(f"{name} . {field}")
            for field, of in kinds[kind][1].items():
                self.read[of].append(f"{name} . {field}")
        if lines:
            self.lines.append(" ".join(["VAR", *lines, "END_VAR"]))

    def operand(self, kind):
        """What may be read as a value of a type."""
        return self.chance.choice(self.read[kind] + [self.chance.choice(LITERALS[kind])] * (1 + len(self.read[kind]) // 2))

    def step(self, result, depth):
        """A line that fits the result, and the type after it."""
        chance, pick = self.chance, self.chance.random()
        if result is None or pick < 0.12:
            kind = chance.choice(list(LITERALS))
            return ("LDN" if kind == "BOOL" and pick < 0.04 else "LD") + " " + self.operand(kind), kind
        if pick < 0.3 and self.written[result]:
            store = chance.choice(["ST", "ST", "STN", "S", "R"]) if result == "BOOL" else "ST"
            return f"{store} {chance.choice(self.written[result])}", result
        if pick < 0.38 and self.instances and not depth:
            return self.call(result), result
        if pick < 0.48 and depth < 8:
            return self.parenthesis(result, depth)
        if result == "BOOL" and pick < 0.6:
            return self.part(depth), "BOOL"
        operator, kind = self.operator(result)
        return f"{operator} {self.divisor() if operator in ('DIV', 'MOD') else self.bit(operator, result)}", kind

    def bit(self, operator, result):
        """An operand for a result; now and then a literal 0 or 1 for a BOOL."""
        return self.chance.choice("01") if result == "BOOL" and self.chance.random() < 0.15 else self.operand(result)

    def divisor(self):
        """A literal that is not 0."""
        return self.chance.choice([number for number in NUMBERS if number not in ("0", "-0")])

    def operator(self, result):
        """An operator for a result, and the type after it."""
        same = {"BOOL": ["AND", "OR", "XOR", "ANDN", "ORN", "XORN", "&", "&N"], "DINT": ["ADD", "SUB", "MUL", "DIV", "MOD"], "TIME": ["ADD", "SUB"]}
        if self.chance.random() < 0.75:
            return self.chance.choice(same[result]), result
        return self.chance.choice(["EQ", "NE"] if result == "BOOL" else ["EQ", "NE", "GT", "GE", "LE", "LT"]), "BOOL"

    def part(self, depth):
        """NOT, a jump or a return."""
        word = self.chance.choice(["NOT", "NOT", "JMPC", "JMPCN", "RETC", "RETCN"] if not depth else ["NOT"])
        if not word.startswith("JMP"):
            return word
        self.label_number += 1
        self.open_labels.append(f"L{self.label_number}")
        return f"{word} L{self.label_number}"

    def call(self, result):
        """A call with a list."""
        name = self.chance.choice(list(self.instances))
        items = []
        for sign, fields in zip((":=", "=>"), self.instances[name]):
            for field, kind in fields.items():
                if sign == ":=" and self.chance.random() < 0.7:
                    items.append(f"{field} := {self.bit('', kind) if kind == 'BOOL' else self.operand(kind)}")
                if sign == "=>" and self.chance.random() < 0.3 and self.written[kind]:
                    items.append(f"{field} => {self.chance.choice(self.written[kind])}")
        self.chance.shuffle(items)
        word = self.chance.choice(["CAL", "CALC", "CALCN"]) if result == "BOOL" else "CAL"
        between = self.chance.choice([" , ", " ,\n "])
        return f"{word} {name}" + (f" ( {between.join(items)} )" if items or self.chance.random() < 0.2 else "")

    def parenthesis(self, result, depth):
        """A deferred operator with lines inside, and the type after it."""
        operator, kind = self.operator(result)
        while operator in ("DIV", "MOD"):
            operator, kind = self.operator(result)
        inside = None
        first = f"{operator} ("
        if self.chance.random() < 0.5:
            inside, first = result, f"{first} {self.operand(result)}"
        lines = [first]
        for _ in range(self.chance.randrange(4)):
            line, inside = self.step(inside, depth + 1)
            lines.append(line)
        if inside != result:
            lines.append(f"LD {self.operand(result)}")
        return "\n".join([*lines, ")"]), kind

    def body(self, most):
        """Lines of a body."""
        result = None
        for _ in range(self.chance.randrange(most + 1)):
            if self.open_labels and self.chance.random() < 0.3:
                label = self.open_labels.pop(self.chance.randrange(len(self.open_labels)))
                alone = result == "BOOL" and self.chance.random() < 0.5
                if not alone:
                    result = self.chance.choice(list(LITERALS))
                self.lines.append(f"{label} :" if alone else f"{label} : LD {self.operand(result)}")
            line, result = self.step(result, 0)
            self.lines.append(line)
            if self.chance.random() < 0.04:
                self.label_number += 1
                self.open_labels.append(f"L{self.label_number}")
                self.lines.append(f"JMP L{self.label_number}")
                result = None
        self.lines += [f"{label} :" for label in self.open_labels]
        self.open_labels = []
        if self.chance.random() < 0.1:
            self.lines.append("RET" if self.keyword == "FUNCTION_BLOCK" else "LD FALSE\nRETC")

    def shown(self):
        """Lines that copy variables and fields to the outputs."""
        own = {kind: [name for name in self.read[kind] if "%" not in name] for kind in ("BOOL", "DINT")}
        bits = [f"LD {name}\nST %QX0.{bit}" for bit, name in enumerate(own["BOOL"][:12], 3)]
        return bits + [f"LD {name}\nST %QD{word}" for word, name in enumerate(own["DINT"][:4])]

    def unit(self, most):
        """The text of the unit, and its inputs and outputs."""
        self.lines.append(f"{self.keyword} {self.name}")
        inputs = self.section("VAR_INPUT", "a", 3)
        outputs = self.section("VAR_OUTPUT", "b", 3)
        self.section("VAR", "c", 4)
        self.instance_section()
        for _ in range(1 if self.keyword == "FUNCTION_BLOCK" else 3):
            self.body(most)
        self.lines += self.shown() if self.keyword == "PROGRAM" else []
        self.lines.append(f"END_{self.keyword}")
        return "\n".join(self.lines) + "\n", (inputs, outputs)


def made_text(chance, most=14):
    """A text with a few blocks and a program; nearly always accepted."""
    closed, text = {}, ""
    for number in range(chance.choice([0, 0, 1, 1, 2, 3])):
        unit, fields = Maker(chance, closed, f"B{number}", "FUNCTION_BLOCK").unit(most)
        closed[f"B{number}"] = fields
        text += unit
    return text + Maker(chance, closed, chance.choice(["P", "Main", "p_1"]), "PROGRAM").unit(most)[0]


WRONG_DECLARATIONS = [
    "VAR c0 , C0 : BOOL ; END_VAR", "VAR z : X ; END_VAR", "VAR z : INT := 1 ; END_VAR", "VAR_INPUT z : TON ; END_VAR", "VAR z : BOOL := 2 ; END_VAR",
    "VAR z : TIME := 1 ; END_VAR", "VAR z : SR := 0 ; END_VAR", "VAR At : BOOL ; END_VAR", "VAR z , Q1 , ton : X ; END_VAR",
    "VAR z : B0 ; END_VAR", "VAR z : B2 ; END_VAR",
    "VAR_OUTPUT z : B1 ; END_VAR", "VAR z : P ; END_VAR", "VAR z1 : Main ; END_VAR", f"VAR {', '.join(f'z{n}' for n in range(260))} : DINT ; END_VAR",
]
WRONG_LINES = [
    "LD TRUE\nAND (\n)", "LD TRUE\nOR (\nAND (\n)\n)", "LD TRUE\nXOR (\nJMP L9\n)", "LD TRUE\nAND (\nL9 : LD 1\n)", "LD TRUE\nAND (\nRETC\n)", ")",
    "LD TRUE\nAND (",
    "LD TRUE\n" + "AND (\n" * 9, "LD TRUE\n" * 1025, "LD %IX0.16", "LD %ID9\nLD %Q", "LD x9", "LD zz.x9", "LD c0.Q",
    "LD TRUE\nAND TRUE.Q", "LD 1\nAND 1", "LD T#1s\nADD 1", "LD 1\nMUL T#1s",
    "LD TRUE\nGT FALSE", "LD TRUE\nEQ T#0s", "LD 1\nST %QX0.0", "LD 1\nNOT", "LD 1\nRETC", "LD 1\nJMPC L9\nL9 :", "JMP L9\nNOT\nL9 :",
    "JMP L9\nL9 : NOT", "LD TRUE\nST %IX0.0", "LD TRUE\nST zz.Q",
    "LD TRUE\nST 1", "LD zz.IN", "LD TRUE\nAND ( zz.PT\n)", "JMP L9", "L9 : JMP L9", "L9 :\nL9 : LD 1", "JMP L9\nL9 :\nL9 :", "LD 1\nDIV 0",
    "LD 1\nMOD -0", "LD 1\nDIV TRUE", "LD 1\nMOD zz.ET",
    "LD 1\nDIV zz.IN", "LD 1\nDIV (\nLD 2\n)", "CAL zz ( CU := 1 )", "CAL zz ( Q := TRUE )", "CAL zz ( IN => %QX0.0 )",
    "CAL zz ( IN := 1 , in := 0 )", "CAL zz ( Q => zz.IN , q => zz.IN )",
    "CAL zz ( IN := 2 )", "CAL zz ( PT := 1 )", "CAL zz ( ET => zz.IN )", "CAL zz ( Q => zz.Q )", "CAL zz ( IN := zz.PT )", "CAL zz ( IN := zz )",
    "CAL zz ( Q => zz )", "CAL c0", "CAL x9 ( x9 := x9 )",
    "LD 1\nCALC zz", "LD zz", "LD TRUE\nS zz", "LD TRUE\nS zz.PT", "LDN 1", "LDN T#1s", "LD TRUE\nEQ (\nLD 1\n)", "LD TRUE\nAND (\nCAL zz\n)",
    "L9 : L8 : LD 1", "LD : LD 1", "NOT : LD 1", "RET\nNOT",
    "LD FALSE\nJMP L9\nLD 1\nL9 : NOT", "LD FALSE\nJMPC L9\nLD 1\nL9 : NOT", "LD FALSE\nJMP L9\nM9 :\nL9 : NOT",
]


def with_wrong_line(chance, text):
    """The text with a declaration or a line that breaks a rule, mostly the last ones of a unit, and with a timer that it may name."""
    lines = text.split("\n")
    heads = [at for at, line in enumerate(lines) if line.startswith(("PROGRAM", "FUNCTION_BLOCK"))]
    head = chance.choice(heads)
    end = next(at for at in range(head, len(lines)) if lines[at].startswith("END_") and not lines[at].startswith("END_VAR"))
    if chance.random() < 0.3:
        lines.insert(head + 1, chance.choice(WRONG_DECLARATIONS))
    else:
        lines.insert(end if chance.random() < 0.7 else chance.randrange(head + 1, end + 1), chance.choice(WRONG_LINES))
        lines.insert(head + 1, "VAR zz : TON ; END_VAR")
    return "\n".join(lines)


def copying():
    """A text that copies what the indicator shows to the outputs."""
    bits = "".join(f"LD %IX1.{bit}\nST %QX0.{bit}\n" for bit in range(6))
    words = "".join(f"LD %ID{word}\nST %QD{word}\n" for word in range(3))
    return f"PROGRAM Copying\n{bits}{words}LD %ID1\nADD %ID2\nSUB %ID0\nST %QD3\nEND_PROGRAM\n"


def dressed(chance, text):
    """The text with other blanks, comments, letter case and line ends."""
    end = chance.choice(["\n", "\n", "\r\n"])
    found = []
    for line in text.split("\n"):
        words = [one.lower() if chance.random() < 0.1 else one for one in line.split(" ")]
        gap = chance.choice([" ", " ", "  ", "\t"])
        line = gap.join(words)
        if chance.random() < 0.05:
            line += chance.choice(["(* a note *)", " (* two\n lines *) ", "\n", "(**)"])
        found.append(line)
    return end.join(found)


def mistaken(chance, text):
    """The text with one to three mistakes."""
    for _ in range(chance.choice([1, 1, 1, 2, 3])):
        words = text.replace("\n", " \n ").split(" ")
        at, pick = chance.randrange(len(words)), chance.random()
        if pick < 0.35:
            words[at] = chance.choice(WRONG)
        elif pick < 0.55:
            words.insert(at, chance.choice(WRONG))
        elif pick < 0.7:
            del words[at]
        elif pick < 0.8:
            words[at], words[-1 - at] = words[-1 - at], words[at]
        elif pick < 0.9:
            words[at] = chance.choice(words)
        elif pick < 0.95:
            words = words[:at]
        else:
            words.insert(at, words[at])
        text = " ".join(words).replace(" \n ", "\n")
    return text


SHORT = (
    "( ( ) ) : := => , ; . & &( &N FOO L LD LD( AND( ADD( XOR( EQ( NOT RET RETC JMP CAL CALC TRUE FALSE 1 T#1s %IX0.0 VAR VAR_INPUT END_VAR BOOL TON t a "
    "END_PROGRAM END_FUNCTION_BLOCK PROGRAM FUNCTION_BLOCK P"
).split() + ["\n"] * 14
BEGINNINGS = ["", "", "PROGRAM P\n", "PROGRAM P VAR ", "FUNCTION_BLOCK B\n", "PROGRAM P END_PROGRAM\n"]
BEGINNINGS += ["PROGRAM P\nLD TRUE\nAND(\n", "PROGRAM P\nVAR t : TON; END_VAR\nCAL t("]
LEXEMES = ["T#", "TIME#", "t#-", "BOOL#", "16#", "2#", "8#", "-", "+", "INT#", "&", "&N", "%", "(*", "*)"]
LEXEMES += ["a", "_", "\n", "\r\n", "\r", " ", "N", "#", ":=", "=>", "="]
DIGITS = list("0123456789019_.dhmsdhmsFfx") + ["ms", "ms", "s", "00", "1h", "2m", "3s", "4ms", "59", "60", "999", "1000", "000000000000"]


def soup(chance):
    """A short text of tokens in any order, after the beginning of some text."""
    words = [chance.choice(SHORT) for _ in range(chance.randrange(1, 9))]
    return chance.choice(BEGINNINGS) + " ".join(words) + chance.choice(["", "\n", "\nEND_PROGRAM\n"])


def lexemes(chance):
    """A body with bytes in any order, mostly those of literals."""
    text = ""
    for _ in range(chance.randrange(1, 4)):
        text += chance.choice(LEXEMES) + "".join(chance.choice(DIGITS) for _ in range(chance.randrange(7)))
    return f"PROGRAM P\nLD {text}\nEND_PROGRAM\n"


def cut_short(chance, text):
    """The text up to some byte, or with a byte more, less or another."""
    at = chance.randrange(len(text) + 1)
    byte = chance.choice("(*):=>.,;#_-+&N%aT1\n\r \x00\xe9")
    return chance.choice([text[:at], text[:at], text[:at] + byte + text[at:], text[:at] + text[at + 1 :], text[:at] + byte + text[at + 1 :]])


SAME_CLASS = [
    "LD LDN ST STN S R AND OR XORN ADD SUB MUL DIV MOD GT EQ NE LE &".split(),
    "NOT RET RETC RETCN".split(),
    "JMP JMPC JMPCN".split(),
    "CAL CALC CALCN".split(),
    "BOOL DINT TIME TON CTU SR B0 B1 P INT DINT BOOL".split(),
    "VAR VAR_INPUT VAR_OUTPUT".split(),
    ":= =>".split(),
    "a0 a1 b0 c0 c1 i0 i1 x".split(),
    "Q IN PT ET CV CU R CLK M S1 Q1 a0 b0 c0".split(),
    "L1 L2 L3 L4 LD R c0".split(),
    "0 1 2 -7 TRUE FALSE BOOL#1 T#1s T#-5s 16#FF c0 i0 %IX0.0 %QX0.1 %ID0 %QD1".split(),
    "%IX0.0 %IX1.5 %ID2 %QX0.15 %QD3 %IX1.6 %IX0.16 %ID3 %QD4 %I1.3 %Q0.15 %Q1.0 %IX00.1 %MX0.0 %QX1.0 %I0 %IX %ix0.1".split(),
]


def misused(chance, text):
    """The text with one to three mistakes that leave most of its grammar as it was: lines moved, words changed for others of their class."""
    for _ in range(chance.choice([1, 1, 2, 3])):
        lines = text.split("\n")
        at, pick = chance.randrange(len(lines)), chance.random()
        if pick < 0.1:
            del lines[at]
        elif pick < 0.25:
            lines.insert(chance.randrange(len(lines)), lines[at])
        elif pick < 0.35:
            other = chance.randrange(len(lines))
            lines[at], lines[other] = lines[other], lines[at]
        else:
            words = lines[at].split(" ")
            place = chance.randrange(len(words))
            classes = [one for one in SAME_CLASS if words[place] in one]
            if classes:
                words[place] = chance.choice(chance.choice(classes))
            lines[at] = " ".join(words)
        text = "\n".join(lines) or "\n"
    return text


def fixed_mistakes():
    """Texts that are too large in some way, and bodies that are refused with the rarer numbers."""
    names = lambda count: ", ".join(f"v{n}" for n in range(count))
    blocks = lambda count: "".join(f"FUNCTION_BLOCK a{n} END_FUNCTION_BLOCK\n" for n in range(count))
    double = "FUNCTION_BLOCK U1\nLD TRUE\nEND_FUNCTION_BLOCK\n"
    for n in range(2, 20):
        double += f"FUNCTION_BLOCK U{n}\nVAR f : U{n - 1}; END_VAR\nCAL f\nCAL f\nEND_FUNCTION_BLOCK\n"
    deep = "PROGRAM P\nLD TRUE\n" + "&(\n" * 8 + "LD TRUE\n" + ")\n" * 8 + "END_PROGRAM"
    wide = "FUNCTION_BLOCK W\nVAR t, u : CTU; " + names(200) + " : BOOL; END_VAR\nEND_FUNCTION_BLOCK\n"
    return [
        " " * 65537, " " * 65536, blocks(64) + "PROGRAM", blocks(63) + "PROGRAM P END_PROGRAM", blocks(64) + "PROGRAM P END_PROGRAM",
        f"PROGRAM P\nVAR {names(257)} : BOOL; END_VAR\nEND_PROGRAM\n", f"PROGRAM P\nVAR {names(256)} : BOOL; END_VAR\nEND_PROGRAM\n",
        double + "PROGRAM P\nVAR f : U19; END_VAR\nCAL f\nCAL f\nEND_PROGRAM\n", double + "PROGRAM P\nVAR f : U19; END_VAR\nCAL f\nEND_PROGRAM\n",
        deep, deep.replace("&(\n", "&(\n&(\n", 1), "PROGRAM P\n" + "LD 1\n" * 1024 + "END_PROGRAM", "PROGRAM P\n" + "LD 1\n" * 1025 + "END_PROGRAM",
        "PROGRAM P\nLD TRUE\n" + "LD TRUE\n" * 1022 + "AND( TRUE\n)\nEND_PROGRAM", "PROGRAM P\n" + "LD 1\n" * 1024 + "LD : LD 1\nEND_PROGRAM",
        wide + f"PROGRAM P\nVAR {', '.join(f'w{n}' for n in range(19))} : W; END_VAR\nEND_PROGRAM\n",
        wide + f"PROGRAM P\nVAR {', '.join(f'w{n}' for n in range(20))} : W; END_VAR\nEND_PROGRAM\n",
        wide + f"PROGRAM P\nVAR w : W; END_VAR\nLD w.t\nEND_PROGRAM\n", wide + f"PROGRAM P\nVAR w : W; END_VAR\nLD TRUE\nST w.v1\nEND_PROGRAM\n",
    ]
