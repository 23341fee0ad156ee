"""Pass 4: what names mean, the type of the result at each line, labels, arguments (docs/LANGUAGE.md, 6 and 7), refusals 401 to 410."""
from .refusal import Refused
from .tables import ADDRESSES, PLAIN, address_name, inputs_and_outputs

LOGIC = {"AND", "OR", "XOR", "ANDN", "ORN", "XORN"}
COMPARING = {"GT", "GE", "LE", "LT"}
EQUAL = {"EQ", "NE"}
STORING = {"ST", "STN", "S", "R"}


class Found:
    """What an operand is: its type (plain, else an instance), whether it may be read and written, the number if it is a whole-number literal."""

    def __init__(self, kind, read=True, written=True, number=None):
        self.type, self.read, self.written, self.number = kind, read, written, number


def literal(token):
    """What a literal is."""
    kind = {"number": "DINT", "duration": "TIME"}.get(token.kind, "BOOL")
    return Found(kind, written=False, number=token.value if token.kind == "number" else None)


def field_of(kind, word, line):
    """What a field of an instance is."""
    inputs, outputs = inputs_and_outputs(kind)
    if word in inputs:
        return Found(inputs[word], read=False)
    if word in outputs:
        return Found(outputs[word], written=False)
    if isinstance(kind, str) or word not in kind.variables:
        raise Refused(401, line)
    return Found(kind.variables[word].type, read=False, written=False)


def meaning(table, operand, line):
    """What an operand is, or 401."""
    if operand.kind == "literal":
        return literal(operand.token)
    if operand.kind == "address":
        name = address_name(operand.token.value)
        return Found(ADDRESSES[name], written=name[1] == "Q")
    variable = table.variables.get(operand.token.word())
    if variable is None or operand.field and variable.plain():
        raise Refused(401, line)
    if operand.field:
        return field_of(variable.type, operand.field.word(), line)
    return Found(variable.type, written=variable.section != "VAR_INPUT")


def wanted(operator, result):
    """The type of the operand that an operator takes, and whether the result before it is of a right type."""
    if operator in LOGIC or operator in ("STN", "S", "R"):
        return "BOOL", result == "BOOL"
    if operator in ("MUL", "DIV", "MOD"):
        return "DINT", result == "DINT"
    if operator in ("ADD", "SUB") or operator in COMPARING:
        return result, result in ("DINT", "TIME")
    return result, True


def after(operator, result):
    """The type of the result after an operator with an operand."""
    return "BOOL" if operator in COMPARING or operator in EQUAL else result


def bit_for(found, wanted_type):
    """Whether a literal 0 or 1 is taken as a BOOL."""
    return wanted_type == "BOOL" and found.number in (0, 1)


class Body:
    """The verification of one body; `result` is the type of the result, None for no result."""

    def __init__(self, table):
        self.table, self.lines = table, table.unit.lines
        self.result, self.reached = None, True
        self.outer, self.labels, self.coming = [], set(), {}

    def check(self):
        """Checks each line in order."""
        for at, line in enumerate(self.lines):
            self.arrive(line, first=at == 0)
            if line.label and line.label.word() in self.labels:
                raise Refused(407, line.label.line)
            if line.label:
                self.labels.add(line.label.word())
            getattr(self, "check_" + line.kind)(line, at)

    def arrive(self, line, first):
        """The result at a line: what all that lead to it agree on."""
        types = [self.result] if self.reached or first else []
        if line.label and line.label.word() not in self.labels:
            types += self.coming.pop(line.label.word(), [])
        self.result = types[0] if types and all(one == types[0] for one in types) else None
        self.reached = True

    def need(self, line, right):
        """403 without a result, 402 if it is not of a right type."""
        if self.result is None:
            raise Refused(403, line.line)
        if not right:
            raise Refused(402, line.line)

    def check_label(self, line, at):
        """A label alone."""

    def check_operand(self, line, at):
        """An operator with an operand."""
        found = meaning(self.table, line.operand, line.line)
        storing, loading = line.operator in STORING, line.operator in ("LD", "LDN")
        if storing and not found.written:
            raise Refused(404, line.line)
        if not storing and not found.read:
            raise Refused(405, line.line)
        if loading:
            if found.type not in PLAIN or line.operator == "LDN" and found.type != "BOOL":
                raise Refused(402, line.line)
            self.result = found.type
            return
        kind, right = wanted(line.operator, self.result)
        self.need(line, right)
        if line.operator in ("DIV", "MOD") and not found.number:
            raise Refused(408, line.line)
        allowed_bit = not storing and bit_for(found, kind) and line.operator in LOGIC | EQUAL
        if found.type != kind and not allowed_bit:
            raise Refused(402, line.line)
        self.result = self.result if storing else after(line.operator, self.result)

    def check_open(self, line, at):
        """An opening line."""
        found = line.operand and meaning(self.table, line.operand, line.line)
        if found and not found.read:
            raise Refused(405, line.line)
        self.need(line, wanted(line.operator, self.result)[1])
        if line.operator in ("DIV", "MOD"):
            raise Refused(408, line.line)
        if found and found.type not in PLAIN:
            raise Refused(402, line.line)
        self.outer.append((line.operator, self.result))
        self.result = found.type if found else None

    def check_close(self, line, at):
        """A `)`: the result inside is the operand."""
        operator, result = self.outer.pop()
        self.need(line, self.result == wanted(operator, result)[0])
        self.result = after(operator, result)

    def check_bare(self, line, at):
        """NOT and the returns."""
        if line.operator != "RET":
            self.need(line, self.result == "BOOL")
        self.reached = line.operator != "RET"

    def check_jump(self, line, at):
        """A jump: its label is below, and its result goes there."""
        word = line.name.word()
        if all(other.label is None or other.label.word() != word for other in self.lines[at + 1 :]):
            raise Refused(406, line.line)
        if line.operator != "JMP":
            self.need(line, self.result == "BOOL")
        self.coming.setdefault(word, []).append(self.result)
        self.reached = line.operator != "JMP"

    def check_call(self, line, at):
        """A call and its list."""
        variable = self.table.variables.get(line.name.word())
        if variable is None:
            raise Refused(401, line.line)
        if variable.plain():
            raise Refused(402, line.line)
        if line.operator != "CAL":
            self.need(line, self.result == "BOOL")
        seen = set()
        for name, sign, operand in line.arguments:
            fields = inputs_and_outputs(variable.type)[sign == "=>"]
            if name.word() not in fields:
                raise Refused(409, line.line)
            if name.word() in seen:
                raise Refused(410, line.line)
            seen.add(name.word())
            self.check_argument(line.line, sign, operand, fields[name.word()])

    def check_argument(self, line, sign, operand, kind):
        """The value or the target of an item of a call's list."""
        found = meaning(self.table, operand, line)
        if sign == ":=" and not found.read:
            raise Refused(405, line)
        if sign == "=>" and not found.written:
            raise Refused(404, line)
        if found.type != kind and not (sign == ":=" and bit_for(found, kind)):
            raise Refused(402, line)


def verify(found):
    """Checks the bodies of the units in text order."""
    for table in found:
        Body(table).check()
