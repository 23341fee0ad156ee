"""What else is wrong with a program text that is refused (docs/REFUSALS.md, "What else is wrong").

The text is refused by the passes of the model; what is refused is taken out, and the text refused again."""
import re
from dataclasses import dataclass

from .costs import costs
from .reader import CALLS, OPERATORS, SECTIONS, UNITS, read
from .refusal import Refused
from .tables import RESERVED, tables
from .tokens import MOST_BYTES, tokens
from .verify import STORING, verify

MOST = 20
# after these no more is looked for
LAST = (102, 103, 107, 202, 203, 208, 306, 411)
ENDS = {"END_" + word for word in UNITS}
# words that no unit can have as names, and that begin or follow a section or a FUNCTION
FOREIGN = {"FUNCTION", "END_FUNCTION", "VAR_IN_OUT", "VAR_GLOBAL", "VAR_EXTERNAL", "VAR_TEMP", "CONSTANT", "RETAIN", "AT"}
# what a gap was, from the least that may follow from it: a comment, from which nothing does; what leaves the result; another instruction, or a declaration; the words of a
# section, but for VAR; what may have had a label; a parenthesis without its other one; a malformed slice, of which the rest is still there; a
# declaration whose names are not sure
COMMENT, ASIDE, LINE, SECTION, LABEL, HALF, SLICE, NAMES = range(8)


@dataclass
class Gap:
    """Bytes that are taken out, their lines, and what they were."""

    start: int
    end: int
    first: int
    last: int
    what: int


class Part:
    """A logical line. It is outside, a head or an end of a unit (`head`), the words of a section (`edge`), a declaration (`section`), an
    instruction with its label, its parentheses or its list (`body`), or after a word of a unit or a section that can't be there (`lost`)."""

    def __init__(self, where, found):
        self.where, self.tokens, self.first, self.last = where, found, found[0].line, found[-1].line
        self.kinds, self.word = [token.kind for token in found], found[0].word()
        self.label = where == "body" and self.kinds[:2] == ["name", ":"]
        self.rest = found[2 if self.label else 0 :]
        self.operator = self.rest[0].word() if self.rest else None
        self.whole = ";" in self.kinds if where == "section" else not depth_of(self.kinds)

    def on(self, first, last):
        """The tokens after the label on these lines of the text."""
        return [token for token in self.rest if first <= token.line <= last]


def depth_of(kinds):
    """The number of parentheses that are open after some tokens."""
    depth = 0
    for kind in kinds:
        depth = max(0, depth + (kind == "(") - (kind == ")"))
    return depth


def names(found):
    """The words among some tokens, but for TRUE and FALSE."""
    return {token.word() for token in found if token.kind == "name"} - {"TRUE", "FALSE"}


def is_foreign(word):
    """Whether a word looks as if it begins a section that this language does not have."""
    return word is not None and word.startswith("VAR_") and word not in SECTIONS


def frame(token, following, where, begins):
    """For a word of a unit or a section: where it can be, what it is, and where the tokens after it are. A label is none."""
    word = token.word()
    if word is None or where == "lost" or following and following.kind == ":":
        return None
    if word in UNITS:
        return "outside", "head", "body"
    if word in ENDS:
        return "body", "head", "outside"
    if word == "END_VAR" and where != "outside":
        return "section", "edge", "body"
    if word in SECTIONS and where != "outside" or is_foreign(word) and where == "body" and begins:
        return "body", "edge", "section"
    return None


def parts_of(found):
    """The logical lines of a text."""
    parts, where, line, rest = [], "outside", [], list(reversed(found))
    while rest:
        token = rest.pop()
        following = rest[-1] if rest else None
        framed = frame(token, following, where, not line)
        if framed or token.kind == "eol" and is_ended(where, line):
            parts += [Part(where, line)] if line else []
            line = []
        if framed and framed[0] != where:
            where, line = "lost", [token]
        elif framed:
            two = following and (where == "outside" or following.word() in FOREIGN)
            parts.append(Part(framed[1], [token, rest.pop()] if two else [token]))
            where = framed[2]
        elif token.kind != "eol" or line:
            line.append(token)
    return parts + ([Part(where, line)] if line else [])


def is_ended(where, line):
    """Whether a line end ends a logical line: not before a semicolon, in parentheses, or in a section or a FUNCTION outside all units."""
    if where == "section":
        return any(token.kind == ";" for token in line)
    if where == "outside":
        return bool(line) and (line[0].word() not in FOREIGN or (line[-1].word() or "")[4:7] == line[0].word()[:3])
    return not depth_of(token.kind for token in line)


def refusal(content):
    """The tokens of a text, and how it is refused."""
    found = []
    try:
        found = tokens(content)
        checked = tables(read(found, 1 + content.count(b"\n")))
        verify(checked)
        costs(checked)
    except Refused as fault:
        return found, fault
    return found, None


class Text:
    """A text with spaces in place of what was refused, and the gaps where it was."""

    def __init__(self, content):
        self.content, self.gaps = content, []

    def was(self, first, last, least=ASIDE):
        """Whether there is a gap on these lines that was so much."""
        return any(gap.what >= least and gap.first <= last and first <= gap.last for gap in self.gaps)

    def has_slice(self, first, last):
        """Whether there was a malformed slice on these lines of which the rest is still there."""
        return any(gap.what == SLICE and first <= gap.first <= last for gap in self.gaps)

    def take_out(self, gaps):
        """Puts spaces in place of these bytes."""
        for gap in gaps:
            spaces = re.sub(rb"[^\n]", b" ", self.content[gap.start : gap.end])
            self.content = self.content[: gap.start] + spaces + self.content[gap.start + len(spaces) :]
            if gap.what not in (SLICE, COMMENT):
                self.gaps = [old for old in self.gaps if old.what != SLICE or not gap.first <= old.first <= gap.last]
            self.gaps.append(gap)


class Extent:
    """What is taken out of a text: what is refused on a line, or, if there is no line, the rest of all with malformed slices."""

    def __init__(self, text, parts, number, line):
        self.text, self.parts, self.number, self.line = text, parts, number, line
        self.gaps, self.words, self.units = [], set(), set()
        self.labels = {part.word for part in parts if part.label}
        for at, part in enumerate(parts):
            # what is missing is refused at what follows; after a declaration without a semicolon END_VAR may be read as its type
            following = parts[at + (2 if part.where == "section" and not part.whole else 1) :][:1] or [part]
            if self.is_last(part, following[0].first):
                break
        # no declaration and no instruction has a name of what was taken out
        for part in parts if self.gaps else []:
            if part.where == "section" and self.units & names(part.tokens):
                self.words |= names(part.tokens)
                self.take(part.tokens, LINE)
            if part.where == "body" and part.operator in (None, *OPERATORS) and (self.words | self.units) & names(part.rest[1:]):
                self.take(part.rest, LINE)

    def take(self, found, what, skipped=0):
        """Takes tokens out, but for the first bytes."""
        if found:
            what = LABEL if what <= LINE and any(token.kind == ":" for token in found) else what
            self.gaps.append(Gap(found[0].start + skipped, found[-1].end, found[0].line, found[-1].line, what))

    def is_on(self, first, last):
        """Whether what is taken out is on these lines."""
        return first <= self.line <= last if self.line else self.text.has_slice(first, last)

    def is_last(self, part, following):
        """Takes out what is wrong of a logical line, after which a line of the text has the next one. Whether no other is looked at."""
        here = self.is_on(part.first, part.last)
        ahead = self.line and self.number < 300 and part.first <= self.line <= following
        if part.where == "edge" and ahead and (len(part.tokens) > 1 or is_foreign(part.word)):
            # of a section that was VAR no input or output is missing
            self.take(part.tokens, LINE if part.word == "VAR" else SECTION, len("END_VAR" if part.word == "END_VAR" else "VAR"))
            return True
        if part.where == "section" and (here or ahead and not part.whole):
            self.declaration(part)
            return not here
        if part.where == "section" and ahead:
            # words after the last semicolon are read with the next line
            more = part.tokens[len(part.kinds) - part.kinds[::-1].index(";") :]
            self.words |= names(more)
            self.take(more, ASIDE)
        if part.where == "body" and here:
            self.instruction(part)
        if part.where == "outside" and self.is_on(part.first, part.first):
            self.outside(part)
        return False

    def outside(self, part):
        """A line outside all units; not if the head of a unit may be missing."""
        is_lost = self.line and self.parts[-1].where == "lost"
        if not is_lost and part.word not in OPERATORS | SECTIONS:
            if is_foreign(part.word):
                self.words |= names(part.tokens)
            else:
                # it may be the head of a unit
                head = [token for token in part.tokens if token.line == part.first]
                self.units |= names(head[: part.kinds.index(":") if ":" in part.kinds else None])
            self.take(part.tokens, LINE)

    def declaration(self, part):
        """The declarations of a line, or at first the initial value alone; not an instruction in a section."""
        found, kinds = part.tokens, part.kinds
        if part.word in OPERATORS and kinds[1:2] not in ([":"], [","]):
            return
        known = self.text.was(part.first, part.last, ASIDE if self.line else NAMES)
        alone = part.first == part.last and kinds[-1] == ";" and kinds.count(";") == 1
        if self.number in (201, 303) and alone and ":=" in kinds and not known:
            self.take(found[kinds.index(":=") : -1], ASIDE)
            return
        sure = self.line and not known and shows_names(found) if self.number == 201 else self.number not in (301, 307)
        self.words |= names(found)
        self.take(found, LINE if sure else NAMES)

    def instruction(self, part):
        """An instruction or a label; not what looks like a declaration."""
        is_typed = part.label and part.operator not in OPERATORS or part.kinds[1:2] == [","]
        if self.number < 300 and is_typed and part.kinds[-1] == ";":
            return
        if self.number in (307, 407) and part.label:
            self.words |= names(part.tokens[:1])
            self.take(part.tokens[:2], LABEL)
        elif part.whole or part.operator in CALLS or self.number == 201:
            self.operator(part, *self.extent(part))
        else:
            self.unclosed(part.rest)

    def operator(self, part, found, closing):
        """An instruction, or the part of it that is taken out; and what closes its parenthesis."""
        is_all, what = part.whole and found == part.rest, LINE
        # a word that is no operator may be a label whose colon is missing, or the rest of one that has its colon too early
        is_word = self.number < 300 and is_all and found and found[0].word() not in OPERATORS
        if is_word:
            self.words |= names(found[:1])
        if self.number == 206:
            what = HALF
        elif self.number < 300 and found and found[0].kind != "name" or is_word and part.label:
            what = LABEL
        elif self.line and is_all and found[1:2] and found[1].word() in OPERATORS:
            # a word more before an operator is no store and no call
            what = LINE
        elif self.line and is_all and part.operator == "CAL" and any(token.kind == "(" for token in found):
            what = ASIDE
        elif self.line and is_all and part.operator in STORING and self.number not in (402, 403, 404):
            # a store to a label may be a jump
            what = LINE if names(found[1:2]) & self.labels else ASIDE
        self.take(found, what)
        self.take(closing, what)

    def extent(self, part):
        """What is taken out of an instruction, and what closes its parenthesis."""
        if not self.line:
            return part.rest, []
        if part.operator in CALLS:
            return part.on(0, part.last if part.whole else self.line), []
        here, last = part.on(self.line, self.line), part.on(part.last, part.last)
        if self.number == 201 and not part.whole:
            return here, []
        if self.number == 201 and part.first == self.line < part.last and last and last[0].kind == ")":
            return here, last
        is_inner = part.first < self.line and not any(token.kind in "()" for token in here)
        return (here if is_inner and self.number not in (204, 205, 206, 207) else part.rest), []

    def unclosed(self, found):
        """Each parenthesis that is not closed, with its operator and the rest of its line. What is refused is not taken out, but known."""
        has_colon = any(token.kind == ":" for token in found if token.line == self.line)
        self.gaps.append(Gap(0, 0, self.line, self.line, LABEL if has_colon else LINE))
        closed, end = 0, len(found)
        for at in reversed(range(len(found))):
            kind = found[at].kind
            if kind == "eol":
                end = at
            elif kind == "(" and not closed:
                self.take(found[max(at - 1, 0) : end], HALF)
                end = at - 1
            else:
                closed += (kind == ")") - (kind == "(")


def shows_names(found):
    """Whether the names of a declaration that can't be read are seen: before each comma and colon is one, or an address, up to the first
    colon no two are next to one another and no point is, each line has a colon or ends with a comma, and none has two colons."""
    was_name, colon = False, 0
    for at, (token, following) in enumerate(zip(found, [*found[1:], None])):
        is_name = token.kind == "name" and token.word() not in RESERVED
        if was_name and is_name and not colon or token.kind == ":" and colon == token.line or token.kind == "." and not colon:
            return False
        was_name, colon = is_name, token.line if token.kind == ":" else colon
        ends = following is not None and following.kind in (",", ":")
        if not is_name and (at == 0 or ends and token.kind != "address"):
            return False
        is_last = following is None or following.kind == "eol"
        if is_last and token.kind not in (",", "eol") and colon != token.line:
            return False
    return any(token.kind == ":" for token in found)


def may_follow(text, found, parts, number, line):
    """Whether a refusal may only follow from what was taken out."""
    changed = [part for part in parts if text.was(part.first, part.last)]
    if text.was(line, line, LINE):
        return True
    if number == 201:
        # what goes on with a list has lines above it of which something was taken out, and perhaps empty ones
        kinds = [token.kind for token in found if token.line >= line][1:2]
        above = max((token.line for token in found if token.line < line and token.kind != "eol"), default=0)
        return text.was(line, line) or kinds in (["=>"], [":="]) and text.was(above, line - 1)
    if number == 206:
        return text.was(0, MOST_BYTES)
    if number in (204, 205, 207):
        return any(part.first <= line <= part.last for part in changed)
    if number == 302:
        return any(part.where == "head" for part in changed)
    if number in (402, 403):
        return any(gap.what == HALF for gap in text.gaps) or is_result_unsure(text, parts, line)
    if number == 406:
        ends = [part.first for part in parts if part.where == "head" and part.first > line]
        return text.was(line, min(ends, default=MOST_BYTES), LABEL)
    missing = {gap.what for gap in text.gaps}
    if number in (404, 405) and any(part.where == "edge" and text.was(part.first, part.last, SLICE) for part in parts):
        # the section may be another one
        return True
    return number in (401, 409) and bool(missing & {NAMES, SLICE}) or number in (404, 405, 409) and SECTION in missing


def is_result_unsure(text, parts, line):
    """Whether the result at a line may come from what was taken out above."""
    above, broken, unsure, left = 0, False, False, False
    for part in parts:
        is_body = part.where == "body"
        here = is_body and text.was(above + 1, min(part.last, line - 1), LINE)
        broken = is_body and broken or here
        # a label may be missing below a jump or a return
        unsure = (unsure or here or broken and (part.label or left)) and is_body and part.operator not in ("LD", "LDN")
        above, left = part.last, part.operator in ("JMP", "RET")
        if above >= line:
            return unsure and part.operator != "CAL"
    return False


def slice_gap(content, fault):
    """A malformed slice; of a comment of other tools the rest of its line, of which nothing is missing then."""
    start, end = fault.slice
    if content.startswith(b"//", start):
        return Gap(start, (content + b"\n").index(b"\n", start), fault.place, fault.place, COMMENT)
    return Gap(start, end, fault.place, fault.place, SLICE)


def further(content):
    """The number and the line of each refusal that `check` lists of a text."""
    text, listed, tried, was_cut = Text(content), [], 0, True
    while len(listed) <= MOST and tried < MOST:
        found, fault = refusal(text.content)
        if not fault:
            break
        number, line = fault.number, fault.place
        if number < 200:
            gaps = [] if number in LAST else [slice_gap(text.content, fault)]
            is_own = not text.was(line, line)
        elif number in LAST:
            gaps, is_own = [], number > 203
        else:
            parts = parts_of(found)
            # once all of the text can be cut, the rest of the lines with malformed slices; what is refused is found again
            gaps = Extent(text, parts, *((number, line) if was_cut else (201, None))).gaps
            is_own = was_cut and bool(gaps) and not may_follow(text, found, parts, number, line)
        tried += 1
        if is_own or not listed:
            listed.append((number, line))
            tried = 0
        if not gaps and (was_cut or number in LAST):
            break
        text.take_out(gaps)
        was_cut = number >= 200
    return listed[:1] + sorted(listed[1:], key=lambda it: it[1])
