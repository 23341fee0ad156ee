"""How the rows of a log are read and checked (docs/LOG.md, 1), refusals 601 to 609."""
import re

from .refusal import Refused

MOST_ROWS = 1000000
LAST_TIME = 1099511627775
QUOTE, COMMA, LF, CR = 0x22, 0x2C, 0x0A, 0x0D


def records(content):
    """The rows of a CSV file as lists of fields. Blank lines are none."""
    at = 3 if content.startswith(b"\xef\xbb\xbf") else 0
    while at < len(content):
        if content[at] in (LF, CR):
            at += 1
            continue
        fields, ended = [], False
        while not ended:
            text, at = one_field(content, at)
            fields.append(text)
            ended = at >= len(content) or content[at] != COMMA
            at += 1
        yield fields


def one_field(content, at):
    """A field that begins here, and where it ends: at a comma, a line end or the end of the file."""
    text = bytearray()
    if content[at : at + 1] == b'"':
        at += 1
        while at < len(content) and (content[at] != QUOTE or content[at + 1 : at + 2] == b'"'):
            at += content[at] == QUOTE
            text.append(content[at])
            at += 1
        at += 1
    while at < len(content) and content[at] not in (COMMA, LF, CR):
        text.append(content[at])
        at += 1
    return bytes(text), at


def fullmatch(pattern, text):
    """Whether bytes are of a pattern, as a whole."""
    return re.fullmatch(pattern, text) is not None


def check_data(kind, data, number):
    """The data of a row as a value, or 605, 606 or 608."""
    if kind == b"C":
        if not fullmatch(rb"-?[0-9]{1,10}", data) or not -8388608 <= int(data) <= 8388607:
            raise Refused(605, number)
        return int(data)
    if kind in (b"L", b"I"):
        length = len(data) == 4 if kind == b"I" else len(data) % 2 == 0 and len(data) <= 8192
        if not length or not fullmatch(rb"[0-9A-Fa-f]*", data):
            raise Refused(606, number)
        return bytes.fromhex(data.decode()) if kind == b"L" else int(data, 16)
    if data:
        raise Refused(608, number)
    return None


def rows(content):
    """Each row below the heading as its number, time, kind and data; ends with a refusal at the first wrong row. 609 is of the run."""
    last, number = 0, 0
    for number, fields in enumerate(records(content), 1):
        if number > MOST_ROWS:
            raise Refused(607, number)
        if len(fields) != 3 or number == 1 and fields != [b"ms", b"kind", b"data"]:
            raise Refused(601, number)
        if number == 1:
            continue
        ms, kind, data = fields
        if not fullmatch(rb"[0-9]{1,13}", ms) or int(ms) > LAST_TIME:
            raise Refused(602, number)
        if int(ms) < last:
            raise Refused(603, number)
        if kind not in (b"C", b"L", b"I", b"S", b"P"):
            raise Refused(604, number)
        yield number, int(ms), kind.decode(), check_data(kind, data, number)
        last = int(ms)
    if number == 0:
        raise Refused(601, 1)
