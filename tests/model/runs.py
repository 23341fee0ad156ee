"""Runs of a log, and the report (docs/LOG.md, 1 and 2)."""
from .indication import Indicator
from .line import Line
from .machine import Machine, changed, value_text
from .refusal import Refused
from .rows import rows
from .tables import ADDRESSES, STANDARD, address_name


class Scale:
    """A scale while a log runs: indicator, line, inputs, and the program if there is one."""

    def __init__(self, plate, program=None, following=None):
        self.indicator = Indicator(plate)
        self.line = Line(self.indicator)
        self.machine = Machine(program) if program else None
        self.inputs, self.following = 0, following

    def image(self):
        """The values of the %I addresses."""
        scale = self.indicator
        image = {f"%IX0.{bit}": bool(self.inputs >> bit & 1) for bit in range(16)}
        states = (scale.stable(), scale.over(), scale.under(), scale.centre_of_zero(), scale.tare_active, scale.valid())
        image.update({f"%IX1.{bit}": state for bit, state in enumerate(states)})
        words = (scale.gross(), scale.net(), scale.tare_value()) if scale.valid() else (0, 0, 0)
        image.update({f"%ID{word}": value for word, value in enumerate(words)})
        return image

    def row(self, number, ms, kind, data):
        """Runs a row; gives the line that it prints, without its line end, or None."""
        if kind == "C":
            self.indicator.sample(data)
        elif kind == "I":
            self.inputs = data
        elif kind == "L":
            answers = self.line.feed(data)
            return f"L {ms} {answers.hex()}" if answers else None
        elif kind == "S" and self.machine:
            return self.scan(ms)
        elif kind == "P" and self.machine:
            if self.following is None:
                raise Refused(609, number)
            self.machine, self.following = changed(self.machine, self.following), None
        return None

    def scan(self, ms):
        """The line of a scan."""
        steps, values = self.machine.scan(ms, self.image()), self.machine.addresses
        bits = sum(values[f"%QX0.{bit}"] << bit for bit in range(16))
        return f"S {ms} {steps} {bits:04x} " + " ".join(str(values[f"%QD{word}"]) for word in range(4))


def find(program, name):
    """The names from the program to a variable or a field, or the address, and the type; None if there is no such thing."""
    if name.startswith("%"):
        address = address_name(name.upper())
        return (address, ADDRESSES[address]) if address in ADDRESSES else None
    table, path = program.main, name.upper().split(".")
    for place, part in enumerate(path):
        variable = table.variables.get(part)
        if variable is None:
            return None
        if place == len(path) - 1:
            return (path, variable.type) if variable.plain() else None
        if isinstance(variable.type, str):
            return field_found(variable.type, path, place)
        table = variable.type
    return None


def field_found(kind, path, place):
    """The field of a standard block at the end of a path."""
    fields = {**STANDARD[kind][0], **STANDARD[kind][1]} if kind in STANDARD else {}
    return (path, fields[path[-1]]) if place == len(path) - 2 and path[-1] in fields else None


def watched(machine, names):
    """What a V line prints of the names that the running program has."""
    found = []
    for name in names:
        place = find(machine.program, name)
        if place is None:
            continue
        path, kind = place
        instance = machine.main
        for part in path[:-1] if isinstance(path, list) else ():
            instance = instance.parts[part]
        value = instance.values[path[-1]] if isinstance(path, list) else machine.addresses[path]
        found.append(f"{name}={value_text(kind, value)}")
    return found


def run(plate, log, program=None, following=None, last=None, watch=(), changes=False):
    """The report of a run as a text, and the exit status."""
    scale, lines, scans, refused, before = Scale(plate, program, following), [], [], None, None
    for name in watch:
        if not find(program, name) and not (following and find(following, name)):
            return "refused 401 0\n", 1
    try:
        for number, ms, kind, data in rows(log):
            line = scale.row(number, ms, kind, data)
            if line and kind == "S" and watch:
                values = watched(scale.machine, watch)
                line += "\n" + " ".join([f"V {ms}", *values])
                if changes and values == before:
                    continue
                before = values
            if line:
                (scans if kind == "S" and last is not None else lines).append(line)
    except Refused as fault:
        refused = fault
    lines += scans[-last:] if last is not None else []
    return "".join(line + "\n" for line in lines) + (refused.line() if refused else ""), 1 if refused else 0
