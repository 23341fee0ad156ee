"""Pass 2: units, declarations, lines and parentheses (docs/LANGUAGE.md, 3), refusals 201 to 208."""
from dataclasses import dataclass, field

from .refusal import Refused

DEFERRING = set("AND ANDN OR ORN XOR XORN ADD SUB MUL DIV MOD GT GE EQ NE LE LT".split())
WITH_OPERAND = DEFERRING | set("LD LDN ST STN S R".split())
BARE = {"NOT", "RET", "RETC", "RETCN"}
JUMPS = {"JMP", "JMPC", "JMPCN"}
CALLS = {"CAL", "CALC", "CALCN"}
OPERATORS = WITH_OPERAND | BARE | JUMPS | CALLS
OUTSIDE_ONLY = JUMPS | CALLS | {"RET", "RETC", "RETCN"}
SECTIONS = {"VAR_INPUT", "VAR_OUTPUT", "VAR"}
UNITS = {"PROGRAM", "FUNCTION_BLOCK"}
LITERALS = {"number", "bool", "duration"}


@dataclass
class Operand:
    """A literal (its token), an address (its token), or a name with or without a field."""

    kind: str
    token: object
    field: object = None


@dataclass
class Declaration:
    """Names of one type in a section, with the token of their initial value or None."""

    section: str
    names: list
    type: object
    value: object


@dataclass
class Line:
    """A line of a body: `kind` is operand, bare, open, close, jump, call or label (alone); `line` is that of its operator or `)`."""

    kind: str
    line: int
    label: object = None
    operator: str = ""
    operand: object = None
    name: object = None
    arguments: list = field(default_factory=list)


@dataclass
class Unit:
    """A unit: its keyword and that keyword's line, its name, declarations and lines."""

    keyword: str
    line: int
    name: object = None
    declarations: list = field(default_factory=list)
    lines: list = field(default_factory=list)


class Reader:
    """Reads the tokens of one text from the first to the last."""

    def __init__(self, found, last_line):
        self.tokens, self.at, self.last_line = found, 0, last_line
        self.units, self.open_unit, self.program = [], None, False
        # for each open parenthesis the line of its operator, and whether it has an operand or an instruction so far
        self.openings, self.counted = [], 0

    def fault_at_end(self):
        """The fault of a text that ends here."""
        if self.openings:
            return Refused(206, self.openings[-1][0])
        if self.open_unit:
            return Refused(202, self.open_unit.line)
        return Refused(203, self.last_line)

    def peek(self, ahead=0):
        """The kind of a token further on; None at the end."""
        return self.tokens[self.at + ahead].kind if self.at + ahead < len(self.tokens) else None

    def take(self, *kinds, skip=False):
        """The next token, which is of one of these kinds, or 201; with skip after any line ends."""
        while skip and self.peek() == "eol":
            self.at += 1
        if self.at == len(self.tokens):
            raise self.fault_at_end()
        token = self.tokens[self.at]
        if kinds and token.kind not in kinds:
            raise Refused(201, token.line)
        self.at += 1
        return token

    def text(self):
        """The units of the text."""
        while self.at < len(self.tokens):
            token = self.take("name", "eol")
            if token.word() in UNITS:
                self.begin_unit(token)
                self.unit()
            elif token.kind == "name":
                raise Refused(201, token.line)
        if not self.program:
            raise self.fault_at_end()
        return self.units

    def begin_unit(self, token):
        """The keyword of a unit."""
        if self.program:
            raise Refused(203, token.line)
        if len(self.units) == 64:
            raise Refused(208, token.line)
        self.open_unit, self.counted = Unit(token.word(), token.line), 0
        self.units.append(self.open_unit)

    def unit(self):
        """A unit from its name to its END word."""
        unit = self.open_unit
        unit.name = self.take("name")
        while not (self.inside() if self.openings else self.line(unit)):
            pass
        self.program = unit.keyword == "PROGRAM"
        self.open_unit = None

    def line(self, unit):
        """What begins at the beginning of a line outside parentheses; whether it was the END word."""
        token = self.take("name", "&", "eol", ")")
        word = token.word()
        if token.kind == "eol":
            return False
        if token.kind == ")":
            raise Refused(206, token.line)
        if token.kind == "name" and self.peek() == ":":
            self.at += 1
            self.labelled(token)
        elif word in SECTIONS and not unit.lines:
            self.section(word)
        elif word == "END_" + unit.keyword:
            return True
        elif token.kind == "&" or word in OPERATORS:
            self.instruction(token)
        else:
            self.take(":")
        return False

    def labelled(self, label):
        """What follows a label and its colon."""
        token = self.take("name", "&", "eol")
        if token.kind == "eol":
            self.open_unit.lines.append(Line("label", label.line, label))
        elif token.kind == "&" or token.word() in OPERATORS:
            self.instruction(token, label)
        else:
            raise Refused(201, token.line)

    def inside(self):
        """What begins at the beginning of a line in a parenthesis; never the END word."""
        token = self.take("name", "&", "eol", ")")
        word = token.word()
        if token.kind == "name" and (self.peek() == ":" or word in OUTSIDE_ONLY):
            raise Refused(205, token.line)
        if token.kind == ")":
            self.close(token)
        elif word == "END_" + self.open_unit.keyword:
            raise Refused(206, self.openings[-1][0])
        elif token.kind == "&" or word in OPERATORS:
            self.openings[-1][1] = True
            self.instruction(token)
        elif token.kind != "eol":
            raise Refused(201, token.line)

    def close(self, token):
        """The `)` of a parenthesis."""
        if not self.openings[-1][1]:
            raise Refused(204, token.line)
        self.count(token)
        self.openings.pop()
        self.open_unit.lines.append(Line("close", token.line))
        self.take("eol")

    def count(self, token):
        """Counts a line of the unit at its operator or `)`."""
        self.counted += 1
        if self.counted > 1024:
            raise Refused(208, token.line)

    def instruction(self, token, label=None):
        """An instruction from its operator to its line end."""
        self.count(token)
        operator = token.word() or token.value
        line = Line("bare", token.line, label, operator)
        self.open_unit.lines.append(line)
        if operator in JUMPS:
            line.kind, line.name = "jump", self.take("name")
        elif operator in CALLS:
            line.kind, line.name = "call", self.take("name")
            self.list_of_call(line)
        elif operator in DEFERRING and self.peek() == "(":
            self.opening(line)
        elif operator not in BARE:
            line.kind, line.operand = "operand", self.operand()
        self.take("eol")

    def opening(self, line):
        """The `(` of an operator and the operand after it, if any."""
        self.at += 1
        if len(self.openings) == 8:
            raise Refused(207, line.line)
        self.openings.append([line.line, False])
        line.kind = "open"
        if self.peek() not in ("eol", None):
            line.operand = self.operand()
            self.openings[-1][1] = True

    def operand(self, skip=False):
        """An operand; with skip with line ends between its tokens."""
        token = self.take("name", "address", *LITERALS, skip=skip)
        if token.kind in LITERALS or token.word() in ("TRUE", "FALSE"):
            return Operand("literal", token)
        if token.kind == "address":
            return Operand("address", token)
        before = self.at
        while skip and self.peek() == "eol":
            self.at += 1
        if self.peek() != ".":
            self.at = before
            return Operand("name", token)
        self.at += 1
        return Operand("name", token, self.take("name", skip=skip))

    def list_of_call(self, line):
        """The list of a call in its brackets, if there is one."""
        if self.peek() != "(":
            return
        self.at += 1
        token = self.take("name", ")", skip=True)
        while token.kind == "name":
            sign = self.take(":=", "=>", skip=True).kind
            line.arguments.append((token, sign, self.operand(skip=True)))
            token = self.take(",", ")", skip=True)
            if token.kind == ",":
                token = self.take("name", skip=True)

    def section(self, word):
        """The declarations of a section."""
        token = self.take("name", skip=True)
        while token.word() != "END_VAR":
            names = [token]
            while self.take(",", ":", skip=True).kind == ",":
                names.append(self.take("name", skip=True))
            kind, value = self.take("name", skip=True), None
            if self.take(":=", ";", skip=True).kind == ":=":
                value = self.take("name", *LITERALS, skip=True)
                if value.kind == "name" and value.word() not in ("TRUE", "FALSE"):
                    raise Refused(201, value.line)
                self.take(";", skip=True)
            self.open_unit.declarations.append(Declaration(word, names, kind, value))
            token = self.take("name", skip=True)


def read(found, last_line):
    """The units of the tokens of a text with this last line."""
    return Reader(found, last_line).text()
