"""Pass 1: bytes, comments and tokens (docs/LANGUAGE.md, 2), refusals 101 to 107."""
import re
from dataclasses import dataclass

from .refusal import Refused

MOST_BYTES = 65536
LEAST, MOST = -(2**31), 2**31 - 1
UNITS = {"d": 86400000, "h": 3600000, "m": 60000, "s": 1000, "ms": 1}
BELOW = {"h": 24, "m": 60, "s": 60, "ms": 1000}
PART = re.compile(r"([0-9]+(?:_[0-9]+)*)(?:\.([0-9]{1,9}))?(ms|d|h|m|s)")
DIGITS = {2: "01", 8: "0-7", 10: "0-9", 16: "0-9A-Fa-f"}
SIGNS = (":=", "=>", "(", ")", ",", ":", ";", ".")
LETTER, WORD, REST = re.compile("[A-Za-z_]"), re.compile("[A-Za-z0-9_]+"), re.compile("-?[A-Za-z0-9_#.]*")
NUMBER, ADDRESS = re.compile("[+-]?[0-9][A-Za-z0-9_#.]*"), re.compile("%[A-Za-z0-9.]*")
TYPED = re.compile("[A-Za-z_][A-Za-z0-9_]*(?:#-?[A-Za-z0-9_#.]*)?")
OPERATOR = re.compile("&[Nn](?![A-Za-z0-9_])|&")


@dataclass
class Token:
    """A token: its kind (`name`, `number`, `bool`, `duration`, `address`, `eol`, `&` for the
    operators that begin with it, or the sign itself), its text or value, its line, the bytes from which and up to which it goes."""

    kind: str
    value: object
    line: int
    start: int = 0
    end: int = 0

    def word(self):
        """The text of a name in capitals; None of another token."""
        return self.value.upper() if self.kind == "name" else None


def number_value(text):
    """The value of a number, None if it is malformed or out of range."""
    for base in (2, 8, 16):
        if text.startswith(f"{base}#"):
            return based_value(text[len(f"{base}#") :], base)
    sign = -1 if text[0] == "-" else 1
    return based_value(text.lstrip("+-") if text[0] in "+-" else text, 10, sign)


def based_value(digits, base, sign=1):
    """The value of digits of a base, with single underscores between them."""
    if not re.fullmatch(f"[{DIGITS[base]}]+(_[{DIGITS[base]}]+)*", digits):
        return None
    value = sign * int(digits.replace("_", ""), base)
    return value if LEAST <= value <= MOST else None


def parts_of(text):
    """The parts of a duration as matches, None if the text is not made of parts."""
    found, at = [], 0
    while at < len(text):
        at += bool(found) and text[at] == "_"
        part = PART.match(text, at)
        if not part:
            return None
        found.append(part)
        at = part.end()
    return found or None


def duration_value(text):
    """The milliseconds of what follows T# or TIME#, None if it is malformed or out of range."""
    sign, text = (-1, text[1:]) if text.startswith("-") else (1, text)
    parts, total, order = parts_of(text.lower()), 0, list(UNITS)
    if parts is None:
        return None
    for position, part in enumerate(parts):
        digits, fraction, unit = part[1].replace("_", ""), part[2] or "", part[3]
        if len(digits) > 12 or (fraction or "." in part[0]) and position < len(parts) - 1:
            return None
        if position and (order.index(unit) <= order.index(parts[position - 1][3]) or int(digits) >= BELOW[unit]):
            return None
        total += int(digits + fraction) * UNITS[unit] * 10 ** (9 - len(fraction))
    whole, rest = divmod(total, 10**9)
    return sign * whole if not rest and LEAST <= sign * whole <= MOST else None


def typed_literal(prefix, rest, line):
    """The token of PREFIX#REST."""
    if prefix.upper() == "BOOL" and rest in ("0", "1"):
        return Token("bool", rest == "1", line)
    if prefix.upper() in ("T", "TIME"):
        value = duration_value(rest)
        if value is None:
            raise Refused(106, line)
        return Token("duration", value, line)
    raise Refused(105, line)


def comment_end(text, at, line):
    """Where the comment that opens here ends."""
    close, again = text.find("*)", at + 2), text.find("(*", at + 2)
    if again >= 0 and (close < 0 or again < close):
        raise Refused(103, line)
    if close < 0:
        raise Refused(102, line)
    return close + 2


def word_token(text, at, line):
    """An identifier or a typed literal, and where it ends."""
    run = WORD.match(text, at)[0]
    end = at + len(run)
    if text[end : end + 1] == "#":
        rest = REST.match(text, end + 1)[0]
        return typed_literal(run, rest, line), end + 1 + len(rest)
    if "__" in run or run.endswith("_") or len(run) > 32:
        raise Refused(104, line)
    return Token("name", run, line), end


def other_token(text, at, line):
    """A number, an address, an operator or a sign, and where it ends."""
    number = NUMBER.match(text, at)
    if number:
        value = number_value(number[0])
        if value is None:
            raise Refused(105, line)
        return Token("number", value, line), number.end()
    if text[at] in "+-":
        raise Refused(105, line)
    address = ADDRESS.match(text, at)
    if address:
        return Token("address", address[0].upper(), line), address.end()
    operator = OPERATOR.match(text, at)
    if operator:
        return Token("&", "ANDN" if len(operator[0]) == 2 else "AND", line), operator.end()
    for sign in SIGNS:
        if text.startswith(sign, at):
            return Token(sign, sign, line), at + len(sign)
    raise Refused(101, line)


def malformed_slice(text, at):
    """Where the slice that is no token ends."""
    found = TYPED.match(text, at) or NUMBER.match(text, at)
    return found.end() if found else at + 1


def tokens(content):
    """The tokens of a text, given as bytes. A refusal of a malformed slice has its `slice`, from which byte to which."""
    if len(content) > MOST_BYTES:
        raise Refused(107, 0)
    text, at, line, found = content.decode("latin-1"), 0, 1, []
    while at < len(text):
        if text[at] == "\n":
            found.append(Token("eol", "\n", line, at, at + 1))
            at, line = at + 1, line + 1
        elif text[at] in " \t" or text.startswith("\r\n", at):
            at += 1
        elif text.startswith("(*", at):
            end = comment_end(text, at, line)
            at, line = end, line + text.count("\n", at, end)
        else:
            try:
                token, end = (word_token if LETTER.match(text, at) else other_token)(text, at, line)
            except Refused as fault:
                fault.slice = at, malformed_slice(text, at)
                raise
            token.start, token.end = at, end
            found.append(token)
            at = end
    return found
