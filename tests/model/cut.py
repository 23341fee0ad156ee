"""A log that is cut: the prelude, and the rows after it (docs/LOG.md, 4.4)."""
from .plate import read_plate
from .refusal import Refused
from .rows import rows
from .runs import Scale

HEADING = "ms,kind,data"


def samples(ms, counts):
    """A row for each of these samples."""
    return [f"{ms},C,{one}" for one in counts]


def prelude(scale, ms):
    """The rows that bring a new scale of the same plate to the state of this one."""
    indicator, found = scale.indicator, []
    window = indicator.plate.window
    if indicator.zero != indicator.plate.zero_counts:
        found += samples(ms, [indicator.zero] * window) + [f"{ms},L,0a5a0d"]
    if indicator.tare_active:
        found += samples(ms, [indicator.zero + indicator.tare] * window) + [f"{ms},L,0a540d"]
    found += samples(ms, indicator.samples[-window:])
    if scale.inputs:
        found.append(f"{ms},I,{scale.inputs:04x}")
    if scale.line.open is not None:
        text = scale.line.open if len(scale.line.open) < 2 else b"??"
        found.append(f"{ms},L,0a{text.hex()}")
    return found


def row_text(ms, kind, data):
    """A row as it is written."""
    if kind == "C":
        return f"{ms},C,{data}"
    if kind == "I":
        return f"{ms},I,{data:04x}"
    return f"{ms},{kind},{data.hex() if kind == 'L' else ''}"


def cut_files(plate, log, at=None):
    """`wc cut`; with no row after the last one."""
    scale, last, lines = Scale(read_plate(plate)), 0, None
    try:
        for number, ms, kind, data in rows(log):
            if at is None or number <= at:
                scale.row(number, ms, kind, data)
                last = ms
                continue
            lines = [HEADING, *prelude(scale, last)] if lines is None else lines
            lines.append(row_text(ms, kind, data))
    except Refused as fault:
        return "".join(line + "\n" for line in lines or []) + fault.line(), 1
    lines = [HEADING, *prelude(scale, last)] if lines is None else lines
    return "".join(line + "\n" for line in lines), 0
