"""Pass 3: names, types, initial values, addresses and frames (docs/LANGUAGE.md, 7), refusals 301 to 308."""
from .refusal import Refused

RESERVED = set(
    "LD LDN ST STN S R AND ANDN OR ORN XOR XORN ADD SUB MUL DIV MOD GT GE EQ NE LE LT NOT RET RETC RETCN JMP JMPC JMPCN CAL CALC CALCN "
    "FUNCTION_BLOCK END_FUNCTION_BLOCK PROGRAM END_PROGRAM VAR_INPUT VAR_OUTPUT VAR END_VAR "
    "BOOL DINT TIME TRUE FALSE TON TOF TP CTU R_TRIG SR RS "
    "FUNCTION END_FUNCTION VAR_IN_OUT VAR_GLOBAL VAR_EXTERNAL VAR_TEMP CONSTANT RETAIN AT".split()
)
PLAIN = ("BOOL", "DINT", "TIME")
# inputs and outputs of the standard blocks, and the places of each
TIMER = ({"IN": "BOOL", "PT": "TIME"}, {"Q": "BOOL", "ET": "TIME"}, 6)
STANDARD = {
    "R_TRIG": ({"CLK": "BOOL"}, {"Q": "BOOL"}, 3),
    "SR": ({"S1": "BOOL", "R": "BOOL"}, {"Q1": "BOOL"}, 3),
    "RS": ({"S": "BOOL", "R1": "BOOL"}, {"Q1": "BOOL"}, 3),
    "CTU": ({"CU": "BOOL", "R": "BOOL", "PV": "DINT"}, {"Q": "BOOL", "CV": "DINT"}, 6),
    "TON": TIMER,
    "TOF": TIMER,
    "TP": TIMER,
}
MOST_VARIABLES, MOST_PLACES = 256, 4096


def addresses():
    """The type of each address."""
    found = {f"%{area}X0.{bit}": "BOOL" for area in "IQ" for bit in range(16)}
    found.update({f"%IX1.{bit}": "BOOL" for bit in range(6)})
    found.update({f"%ID{word}": "DINT" for word in range(3)})
    found.update({f"%QD{word}": "DINT" for word in range(4)})
    return found


ADDRESSES = addresses()


def address_name(text):
    """An address as it is in the table: `%I0.3` is `%IX0.3`."""
    return text if text[1:3] in ("IX", "QX", "ID", "QD") else text[:2] + "X" + text[2:]


class Variable:
    """A variable: its name as spelled and its section; its type is plain, of a standard block, or a Table; its initial value."""

    def __init__(self, name, section, kind, value):
        self.name, self.section, self.type, self.value = name, section, kind, value

    def plain(self):
        """Whether it is no instance."""
        return self.type in PLAIN


class Table:
    """The names of one unit."""

    def __init__(self, unit):
        self.unit, self.name = unit, unit.name.value
        self.variables = {}
        self.places = 45 if unit.keyword == "PROGRAM" else 0

    def fields(self, section):
        """The types of the inputs or outputs."""
        return {name: one.type for name, one in self.variables.items() if one.section == section}


def inputs_and_outputs(kind):
    """The types of a block's inputs and of its outputs."""
    return STANDARD[kind][:2] if kind in STANDARD else (kind.fields("VAR_INPUT"), kind.fields("VAR_OUTPUT"))


def places_of(kind):
    """The places of a variable of a type."""
    if kind in PLAIN:
        return 1
    return STANDARD[kind][2] if kind in STANDARD else kind.places


def type_of(token, section, closed, blocks):
    """The type that a declaration names, or 302 or 308."""
    word = token.word()
    if word in PLAIN:
        return word
    if word in STANDARD or word in closed:
        if section != "VAR":
            raise Refused(302, token.line)
        return word if word in STANDARD else closed[word]
    raise Refused(308 if word in blocks else 302, token.line)


def initial_value(kind, token):
    """The initial value of a variable of a type, or 303."""
    if token is None:
        return {"BOOL": False, "DINT": 0, "TIME": 0}.get(kind)
    if kind == "BOOL" and token.kind == "name":
        return token.word() == "TRUE"
    if kind == "BOOL" and (token.kind == "bool" or token.kind == "number" and token.value in (0, 1)):
        return bool(token.value)
    if (kind, token.kind) in (("DINT", "number"), ("TIME", "duration")):
        return token.value
    raise Refused(303, token.line)


def declare(table, declaration, closed, blocks):
    """Adds the names of a declaration to a table."""
    seen = set(table.variables)
    for token in declaration.names:
        if token.word() in RESERVED:
            raise Refused(307, token.line)
        if token.word() in seen:
            raise Refused(301, token.line)
        seen.add(token.word())
    kind = type_of(declaration.type, declaration.section, closed, blocks)
    value = initial_value(kind, declaration.value)
    for token in declaration.names:
        table.variables[token.word()] = Variable(token.value, declaration.section, kind, value)
        table.places += places_of(kind)
        if len(table.variables) > MOST_VARIABLES or table.places > MOST_PLACES:
            raise Refused(306, token.line)


def check_line(line, block):
    """The label and the addresses of a line."""
    if line.label and line.label.word() in RESERVED:
        raise Refused(307, line.label.line)
    operands = [line.operand] if line.operand else [operand for _, _, operand in line.arguments]
    for operand in operands:
        if operand.kind == "address" and block:
            raise Refused(305, operand.token.line)
        if operand.kind == "address" and address_name(operand.token.value) not in ADDRESSES:
            raise Refused(304, operand.token.line)


def tables(units):
    """The tables of the units, in text order."""
    blocks = {unit.name.word() for unit in units if unit.keyword == "FUNCTION_BLOCK"}
    closed, names, found = {}, set(), []
    for unit in units:
        if unit.name.word() in RESERVED:
            raise Refused(307, unit.name.line)
        if unit.name.word() in names:
            raise Refused(301, unit.name.line)
        names.add(unit.name.word())
        table = Table(unit)
        for declaration in unit.declarations:
            declare(table, declaration, closed, blocks)
        for line in unit.lines:
            check_line(line, unit.keyword == "FUNCTION_BLOCK")
        closed[unit.name.word()] = table
        found.append(table)
    return found
