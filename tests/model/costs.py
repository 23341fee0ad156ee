"""Pass 5: the bound of each unit and its worst path (docs/LANGUAGE.md, 5), refusal 411."""
from .refusal import Refused
from .tables import STANDARD

MOST_STEPS = 1000000


def target(lines, at):
    """The number of the line that a jump goes to."""
    word = lines[at].name.word()
    return next(to for to in range(at + 1, len(lines)) if lines[to].label and lines[to].label.word() == word)


def cost_of_call(table, line, bounds):
    """What a call that acts costs besides its own step."""
    kind = table.variables[line.name.word()].type
    return len(line.arguments) + (1 if kind in STANDARD else bounds[kind])


def longest(table, bounds):
    """The steps of the longest path of a unit, and its lines."""
    lines = table.unit.lines
    paths = [(0, [])] * (len(lines) + 1)
    for at in reversed(range(len(lines))):
        line = lines[at]
        if line.kind == "label":
            paths[at] = paths[at + 1]
            continue
        own = 1 + (cost_of_call(table, line, bounds) if line.kind == "call" else 0)
        steps, path = paths[at + 1]
        if line.operator == "RET":
            steps, path = 0, []
        if line.kind == "jump":
            there = paths[target(lines, at)]
            if line.operator == "JMP" or there[0] > steps:
                steps, path = there
        paths[at] = own + steps, [line.line, *path]
    return paths[0]


def costs(found):
    """The bound and the worst path of each unit, by its table."""
    bounds, paths = {}, {}
    for table in found:
        bounds[table], paths[table] = longest(table, bounds)
        if bounds[table] > MOST_STEPS:
            raise Refused(411, table.unit.line)
    return bounds, paths
