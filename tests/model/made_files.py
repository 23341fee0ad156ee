"""Makes plates, logs and jobs: accepted ones, ones at the edges, and ones with a mistake in them."""

UNITS = ["g", "kg", "kg", "t"]
WRONG_LINES = [
    'unit = "lb"', "unit = 5", "decimals = 4", "decimals = -1", "e = 3", "e = 10", "e = 1", "e = 0", "max = 15001", "max = 0", "max = -5",
    "zero_counts = 8388608",
    "zero_counts = -8388609", "span_counts = 8000001", "span_counts = 1", "window = 1", "window = 17", 'window = "4"', "extra = 1", "x",
    "window = true",
    "e = 5.0", "= 5", "max = 9223372036854775808", "[table]",
]
WRONG_ROWS = [
    "0,S", "0,S,,", "x,S,", ",S,", "1099511627776,S,", "00000000000000,S,", "0,S,", "{t},s,", "{t}, S,", "{t},C,8388608", "{t},C,+0", "{t},C,",
    "{t},C,1.5",
    "{t},L,0A5", "{t},L,0x", "{t},I,00a", "{t},I,00000", "{t},I,", "{t},S,x", "{t},P,x", "{t},P,", "{t},Q,", '{t},"S,', '"{t}"x,S,', "{t},L,0a 57",
    "-1,S,", '""', "{t},C,-8388609",
]
LIKE_HEADINGS = ["@next", "@next", "@log", "@program", "@plate", "@Log", "@log ", " @log", "@next\r", "@log\r\r"]
REQUESTS = ["W", "W", "Z", "T", "T", "M", "C", "w", "", "WW", "?"]


def made_plate(chance):
    """The lines of an accepted plate, and its values."""
    unit, decimals = chance.choice(UNITS), chance.choice([0, 0, 1, 2, 3])
    if unit == "g":
        decimals = 0
    grams = {"g": 1, "kg": 1000, "t": 1000000}[unit]
    allowed = [e for e in (1, 2, 5) + ((10, 20, 50) if decimals in (0, 3) else ()) if e * grams >= 5 * 10**decimals]
    e, n = chance.choice(allowed), chance.choice([500, 501, 999, 1000, 3000, 7777, 10000])
    span = chance.choice([4 * n, 4 * n + 1, 200 * n, 8000000, chance.randrange(4 * n, 8000001)])
    values = {
        "unit": f'"{unit}"',
        "decimals": decimals,
        "e": e,
        "max": e * n,
        "zero_counts": chance.choice([0, 10000, -8388608, 8388607, chance.randrange(-9000, 9000)]),
        "span_counts": min(span, 8000000),
        "window": chance.choice([2, 3, 4, 4, 16]),
    }
    lines = [f"{key} = {value}" for key, value in values.items()]
    chance.shuffle(lines)
    return lines, values


def plate_text(chance, lines, wrong):
    """A plate as a file; with a mistake if it is to be wrong."""
    lines = list(lines)
    if wrong:
        line = chance.choice(WRONG_LINES)
        key = line.partition(" =")[0]
        kept = [one for one in lines if one.partition(" =")[0] != key] if chance.random() < 0.9 else lines
        lines = kept + [line] if chance.random() < 0.85 else lines[1:]
        chance.shuffle(lines)
    if chance.random() < 0.2:
        lines.insert(0, "# a plate")
    text = chance.choice(["\n", "\r\n"]).join(lines) + chance.choice(["\n", ""])
    return with_other_bytes(chance, text, "\"'=#\n\r.[]{}_0x1+-et \t,\\") if wrong and chance.random() < 0.4 else text


def counts_near(chance, values, load):
    """Counts of a load that spread a little."""
    n, span, zero = values["max"] // values["e"], values["span_counts"], values["zero_counts"]
    spread = chance.choice([0, 0, 0, span // (4 * n), span // (2 * n), span // n])
    counts = zero + load * span // (2 * n) + chance.randrange(-spread, spread + 1)
    return max(-8388608, min(8388607, counts))


def made_load(chance, n):
    """A load in half intervals, near the edges more often."""
    edges = [0, 0, 1, -1, 2, -40, -41, -42, 2 * n, 2 * n + 18, 2 * n + 19, 2 * n + 20, n // 25, -(n // 25)]
    return chance.choice([*edges, chance.randrange(2 * n), chance.randrange(2 * n)])


def line_bytes(chance):
    """Bytes of the host: requests, cut and mistaken ones."""
    text = b""
    for _ in range(chance.choice([1, 1, 2, 3])):
        request = b"\n" + chance.choice(REQUESTS).encode() + b"\r"
        pick = chance.random()
        if pick < 0.1:
            request = request[: chance.randrange(3)]
        elif pick < 0.15:
            request = bytes([chance.choice([0x1B, 0x41, 0x0D, 0x0A, 0, 255])]) + request
        elif pick < 0.2:
            request = request[:1] + bytes([chance.choice([0x1B, 0x41, 0x0A])]) + request[1:]
        text += request
    return text


def made_rows(chance, values, most, change, kinds="CCCSSSSLLIN"):
    """Rows of a log below the heading, of these kinds; N is a window of samples of a new load."""
    n, ms, rows, load = values["max"] // values["e"], chance.choice([0, 0, 5, 1099511627000]), [], 0
    for _ in range(chance.randrange(most + 1)):
        ms = min(ms + chance.choice([0, 1, 10, 10, 20, 100]), 1099511627775)
        kind = chance.choice(kinds)
        if kind == "N":
            load = made_load(chance, n)
            rows += [f"{ms},C,{counts_near(chance, values, load)}" for _ in range(values["window"])]
        elif kind == "C":
            rows.append(f"{ms},C,{counts_near(chance, values, load)}")
        elif kind == "L":
            text = line_bytes(chance).hex()
            rows.append(f"{ms},L,{text.upper() if chance.random() < 0.2 else text}")
        elif kind == "I":
            rows.append(f"{ms},I,{chance.choice([0, 1, 2, 3, 7, chance.randrange(65536)]):04x}")
        else:
            rows.append(f"{ms},S,")
        if change and chance.random() < 0.08:
            rows.append(f"{ms},P,")
            change = chance.random() < 0.1
    return rows


def log_text(chance, rows, wrong):
    """A log as a file: in some spelling, and with a wrong row if it is to be wrong."""
    rows = list(rows)
    if wrong:
        at = chance.randrange(len(rows) + 1)
        ms = rows[at - 1].partition(",")[0] if at else "0"
        rows.insert(at, chance.choice(WRONG_ROWS).replace("{t}", ms))
    rows.insert(0, "ms,kind,data")
    if wrong and chance.random() < 0.1:
        rows[0] = chance.choice(["ms,kind", "ms,kind,Data", '"ms","kind","data"', "", "ms,kind,data,"])
    pick = chance.random()
    if pick < 0.2:
        rows = [",".join(f'"{part}"' for part in row.split(",")) if chance.random() < 0.3 else row for row in rows]
    end = chance.choice(["\n", "\n", "\r\n", "\r"])
    if pick > 0.8:
        rows = [row + (end if chance.random() < 0.2 else "") for row in rows]
    text = ("\ufeff" if chance.random() < 0.05 else "") + end.join(rows) + chance.choice([end, ""])
    return with_other_bytes(chance, text, "\"\"\",,\n\r x0-+\0\u00e9\ufeff") if wrong and chance.random() < 0.4 else text


def job_text(chance, plate, program, following, log, wrong):
    """A job; with a mistake in its headings if it is to be wrong."""
    end = chance.choice(["\n", "\r\n"])
    closed = lambda text: text if text.endswith("\n") or not text else text + "\n"
    parts = [("plate", closed(plate)), ("program", closed(program))] + ([("next", closed(following))] if following else []) + [("log", log)]
    if wrong:
        pick = chance.randrange(8)
        if pick >= 5:
            return with_other_headings(chance, "".join(f"@{name}{end}{text}" for name, text in parts))
        if pick == 0:
            del parts[chance.randrange(len(parts))]
        elif pick == 1:
            chance.shuffle(parts)
        elif pick == 2:
            parts.insert(chance.randrange(len(parts) + 1), chance.choice(parts))
        elif pick == 3:
            parts[0] = ("plate ", parts[0][1])
        else:
            return "\n" + "".join(f"@{name}{end}{text}" for name, text in parts)
    return "".join(f"@{name}{end}{text}" for name, text in parts)


def with_other_bytes(chance, text, bytes_tried):
    """The text with one to three bytes more, less or another."""
    for _ in range(chance.choice([1, 1, 2, 3])):
        at, byte = chance.randrange(len(text) + 1), chance.choice(bytes_tried)
        text = chance.choice([text[:at] + byte + text[at:], text[:at] + text[at + 1 :], text[:at] + byte + text[at + 1 :]])
    return text


def with_other_headings(chance, text):
    """A job with one to three lines more that look like headings."""
    lines = text.split("\n")
    for _ in range(chance.choice([1, 1, 2, 3])):
        lines.insert(chance.randrange(len(lines) + 1), chance.choice(LIKE_HEADINGS))
    return "\n".join(lines)
