"""The plate (docs/INSTRUMENT.md, 1): seven keys, and refusals 501 to 508."""
import math
import tomllib

from .refusal import Refused

KEYS = ("unit", "decimals", "e", "max", "zero_counts", "span_counts", "window")
GRAMS = {"g": 1, "kg": 1000, "t": 1000000}
MOST_BYTES = 1048576


class Plate:
    """An accepted plate; `intervals` is n, the number of intervals of Max."""

    def __init__(self, values):
        self.unit, self.decimals, self.e = values["unit"], values["decimals"], values["e"]
        self.max, self.zero_counts = values["max"], values["zero_counts"]
        self.span_counts, self.window = values["span_counts"], values["window"]
        self.intervals = self.max // self.e


def decimal(text):
    """The value of a decimal number of TOML; too large for 64 bits is an error."""
    value = float(text)
    if math.isinf(value) and "inf" not in text:
        raise ValueError(text)
    return value


def whole_numbers(value):
    """The whole numbers in a value, through all tables and arrays."""
    if isinstance(value, (dict, list)):
        return [one for part in (value.values() if isinstance(value, dict) else value) for one in whole_numbers(part)]
    return [value] if type(value) is int else []


def read_table(content):
    """The keys and values of a TOML file, or 501. `tomllib` takes no byte order mark, and whole numbers of any size."""
    try:
        values = tomllib.loads(content.decode("utf-8").removeprefix("\ufeff"), parse_float=decimal)
    except (ValueError, RecursionError):
        raise Refused(501, 0) from None
    if any(not -(2**63) <= value < 2**63 for value in whole_numbers(values)):
        raise Refused(501, 0)
    return values


def interval_allowed(unit, decimals, e):
    """505: 1, 2 or 5, and with 0 or 3 decimals 10, 20 or 50; at least 5 g."""
    allowed = (1, 2, 5) + ((10, 20, 50) if decimals in (0, 3) else ())
    return e in allowed and e * GRAMS[unit] >= 5 * 10**decimals


def count_allowed(intervals):
    """506: from 500 to 10000 intervals."""
    return 500 <= intervals <= 10000


def read_plate(content):
    """The plate of the bytes of a file."""
    if len(content) > MOST_BYTES:
        raise Refused(702, 0)
    values = read_table(content)
    kinds = {key: str if key == "unit" else int for key in KEYS}
    if set(values) != set(KEYS) or any(type(values[key]) is not kinds[key] for key in KEYS):
        raise Refused(502, 0)
    if values["unit"] not in GRAMS:
        raise Refused(503, 0)
    if not 0 <= values["decimals"] <= 3:
        raise Refused(504, 0)
    if not interval_allowed(values["unit"], values["decimals"], values["e"]):
        raise Refused(505, 0)
    intervals, rest = divmod(values["max"], values["e"])
    if rest or not count_allowed(intervals):
        raise Refused(506, 0)
    if not -8388608 <= values["zero_counts"] <= 8388607 or not 4 * intervals <= values["span_counts"] <= 8000000:
        raise Refused(507, 0)
    if not 2 <= values["window"] <= 16:
        raise Refused(508, 0)
    return Plate(values)
