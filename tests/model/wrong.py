"""The wrong bodies of the plate, the indicator and the line as changes of the model, each by the edit that makes it of the code."""
import re
from contextlib import contextmanager
from unittest import mock

from . import indication, line, plate
from .line import number_text


class Failed(Exception):
    """A fault of a device that there was not."""


def over_before_rounding(self):
    """Over is also said of a load above Max by more than nine intervals before it is rounded."""
    n = self.plate.intervals
    return bool(self.samples) and (self.in_intervals(self.load()) > n + 9 or self.load() * n > self.plate.span_counts * (n + 9))


def centre_within_half_an_interval(self):
    """The centre of zero reaches to half an interval."""
    return bool(self.samples) and 2 * abs(self.load() * self.plate.intervals) <= self.plate.span_counts


def centre_depends_on_net(self):
    """The centre of zero is that of the net weight."""
    return bool(self.samples) and 4 * abs((self.load() - self.tare) * self.plate.intervals) <= self.plate.span_counts


def over_by_net(self):
    """Over is that of the gross weight less the tare."""
    return bool(self.samples) and self.in_intervals(self.load()) - self.in_intervals(self.tare) > self.plate.intervals + 9


def over_one_interval_late(self):
    """Over is said from Max and eleven intervals on."""
    return bool(self.samples) and self.in_intervals(self.load()) > self.plate.intervals + 10


def tare_of(may_move=False, when_full=False, least=1, above=0, rounded=False, is_kept=False):
    """The tare command, which takes a moving load, at once or when the window is full, one from a number of intervals on or up to some above
    Max, or a rounded one, or keeps an active tare."""

    def set_tare(self):
        moves = may_move or when_full and len(self.samples) >= self.plate.window
        if not self.samples or not (moves or self.stable()) or not least <= self.in_intervals(self.load()) <= self.plate.intervals + above:
            return False
        if is_kept and self.tare_active:
            return True
        self.tare, self.tare_active = self.load(), True
        if rounded:
            self.tare -= self.tare % (self.plate.span_counts // self.plate.intervals)
        return True

    return set_tare


def zero_of(parts=50, keeps_tare=False, may_move=False, walks=False):
    """The zero command, which reaches to a part of the span, or is counted from the last zero point, keeps the tare, or takes a moving load
    once the window is full."""

    def set_zero(self):
        present = self.samples[-1] if self.samples else self.plate.zero_counts
        moves, away = may_move and len(self.samples) >= self.plate.window, abs(present - (self.zero if walks else self.plate.zero_counts))
        if not (moves or self.stable()) or parts * away > self.plate.span_counts:
            return False
        self.zero = present
        if not keeps_tare:
            self.clear_tare()
        return True

    return set_zero


def stable_within_a_whole_interval(self):
    """The last samples may spread over a whole interval."""
    last = self.samples[-self.plate.window :]
    return len(last) == self.plate.window and (max(last) - min(last)) * self.plate.intervals <= self.plate.span_counts


def a_moving_load_is_stable(self):
    """Any load is at rest once the window is full."""
    return len(self.samples) >= self.plate.window


def weights_are_cut(numerator, denominator):
    """The whole number that a quotient has reached."""
    return abs(numerator) // denominator * (1 if numerator >= 0 else -1)


def weights_are_raised(numerator, denominator):
    """The whole number that is not nearer to 0 than a quotient."""
    return -(-abs(numerator) // denominator) * (1 if numerator >= 0 else -1)


def a_unit_more(self):
    """A gross weight that is one unit of the last decimal greater."""
    return self.in_intervals(self.load()) * self.plate.e + 1


def a_second_tare_is_the_net_weight(self):
    """A tare that is taken while another is active is the net weight."""
    if not self.stable() or not 1 <= self.in_intervals(self.load()) <= self.plate.intervals:
        return False
    self.tare, self.tare_active = self.load() - self.tare, True
    return True


def commands_by(known):
    """A line that takes another text for a request."""
    take = line.Line.take

    def taken(self, byte):
        if byte == line.CR and self.open is not None:
            self.open = known(self.open)
        return take(self, byte)

    return taken


def tare_in_steps_of_two_intervals(self):
    """The tare value has twice the interval of the scale."""
    intervals = self.in_intervals(self.tare)
    return abs(intervals) // 2 * 2 * self.plate.e * (1 if intervals >= 0 else -1)


def a_long_chunk_is_a_fault(self, content):
    """More than a hundred bytes at once are a fault."""
    if len(content) > 100:
        raise Failed
    return b"".join(self.take(byte) for byte in content)


def request_cut_is_forgotten(self, content):
    """What began with earlier bytes is forgotten."""
    self.open = None
    return b"".join(self.take(byte) for byte in content)


def without_a_zero_before_the_point(value, decimals):
    """A weight, in which the digit before the point is blank if it is 0."""
    return re.sub(r"^(-?)0(?=\.|$)", r"\1 ", number_text(value, decimals))


def without_a_point(value, decimals):
    """A weight with a space in the place of its point."""
    return number_text(value, decimals).replace(".", " ")


def with_letter(place, letter, instead):
    """An answer with another letter at a place, where it has this one."""
    answered = line.Line.answer

    def answer(self, **more):
        text = answered(self, **more)
        return text[:place] + instead + text[place + 1 :] if text[place : place + 1] == letter else text

    return answer


def plate_with(change):
    """A plate that is changed once it is read."""
    read = plate.Plate.__init__

    def made(self, values):
        read(self, values)
        change(self)

    return made


def interval_is_doubled(self):
    """Each scale interval counts twice, so that there are half as many."""
    self.e, self.intervals = 2 * self.e, self.max // (2 * self.e)


def intervals_of(ones=(1, 2, 5), after=(0, 3)):
    """An interval that is one of these, or after so many decimals one of 10, 20 and 50, and has at least 5 g."""

    def interval_allowed(unit, decimals, e):
        allowed = ones + ((10, 20, 50) if decimals in after else ())
        return e in allowed and e * plate.GRAMS[unit] >= 5 * 10**decimals

    return interval_allowed


def read_with(change):
    """A plate of whose values some are changed before they are checked."""
    read = plate.read_table
    return lambda content: change(read(content))


def without_a_note(values):
    """A key `note` is passed over."""
    return {key: value for key, value in values.items() if key != "note"}


def with_pounds(values):
    """The unit `lb` is read, as tons."""
    return {**values, "unit": "t"} if values.get("unit") == "lb" else values


def with_a_greatest_load(values):
    """Without a key `max` the greatest load is 15000."""
    return {"max": 15000, **values}


def a_question_ends_the_tare(self, text, right=line.Line.act):
    """The question for the weight clears the tare."""
    if text == b"W":
        self.indicator.clear_tare()
    return right(self, text)


def intervals_from(least, most=10000):
    """From a number of intervals to another."""
    return lambda intervals: least <= intervals <= most


def units_for_intervals(greatest, interval):
    """As many intervals as the greatest load has units."""
    return greatest, 0


SCALE, LINE = indication.Indicator, line.Line
# what each is in the model: where it is, its name, and the wrong body
BODIES = {
    "tools/edits/wc_plate/a_foreign_unit_is_admitted": (plate, "read_table", read_with(with_pounds)),
    "tools/edits/wc_plate/interval_is_doubled": (plate.Plate, "__init__", plate_with(interval_is_doubled)),
    "tools/edits/wc_plate/an_interval_of_four": (plate, "interval_allowed", intervals_of(ones=(1, 2, 4, 5))),
    "tools/edits/wc_plate/a_zero_after_two_decimals": (plate, "interval_allowed", intervals_of(after=(0, 2, 3))),
    "tools/edits/wc_plate/intervals_are_units": (plate, "divmod", units_for_intervals),
    "tools/edits/wc_plate/a_hundred_intervals_are_enough": (plate, "count_allowed", intervals_from(100)),
    "tools/edits/wc_plate/twenty_thousand_intervals": (plate, "count_allowed", intervals_from(500, 20000)),
    "tools/edits/wc_plate/other_keys_are_passed_over": (plate, "read_table", read_with(without_a_note)),
    "tools/edits/wc_plate/a_missing_greatest_load_is_supplied": (plate, "read_table", read_with(with_a_greatest_load)),
    "tools/edits/wc_sma/no_point_is_written": (line, "number_text", without_a_point),
    "tools/edits/wc_indicator/weights_are_cut": (indication, "nearest", weights_are_cut),
    "tools/edits/wc_indicator/weights_are_raised": (indication, "nearest", weights_are_raised),
    "tools/edits/wc_sma/a_zero_before_the_point_is_blank": (line, "number_text", without_a_zero_before_the_point),
    "tools/edits/wc_indicator/weights_have_a_unit_more": (SCALE, "gross", a_unit_more),
    "wc_indicator/must-fail/over_before_rounding": (SCALE, "over", over_before_rounding),
    "tools/edits/wc_indicator/over_one_interval_late": (SCALE, "over", over_one_interval_late),
    "tools/edits/wc_indicator/over_by_net": (SCALE, "over", over_by_net),
    "tools/edits/wc_indicator/tare_above_the_greatest": (SCALE, "set_tare", tare_of(above=9)),
    "tools/edits/wc_sma/net_is_reported_as_gross": (LINE, "answer", with_letter(3, b"N", b"G")),
    "tools/edits/wc_sma/motion_is_never_reported": (LINE, "answer", with_letter(4, b"M", b" ")),
    "tools/edits/wc_indicator/a_moving_load_is_stable": (SCALE, "stable", a_moving_load_is_stable),
    "tools/edits/wc_indicator/stable_within_a_whole_interval": (SCALE, "stable", stable_within_a_whole_interval),
    "tools/edits/wc_indicator/zero_within_four_percent": (SCALE, "set_zero", zero_of(parts=25)),
    "tools/edits/wc_indicator/zero_walks": (SCALE, "set_zero", zero_of(walks=True)),
    "wc_indicator/must-fail/zero_keeps_the_tare": (SCALE, "set_zero", zero_of(keeps_tare=True)),
    "tools/edits/wc_indicator/zero_in_motion": (SCALE, "set_zero", zero_of(may_move=True)),
    "wc_indicator/must-fail/centre_depends_on_net": (SCALE, "centre_of_zero", centre_depends_on_net),
    "tools/edits/wc_indicator/centre_within_half_an_interval": (SCALE, "centre_of_zero", centre_within_half_an_interval),
    "tools/edits/wc_indicator/tare_in_steps_of_two_intervals": (SCALE, "tare_value", tare_in_steps_of_two_intervals),
    "tools/edits/wc_indicator/tare_at_zero": (SCALE, "set_tare", tare_of(least=0)),
    "tools/edits/wc_indicator/tare_below_zero": (SCALE, "set_tare", tare_of(least=-20)),
    "tools/edits/wc_indicator/an_active_tare_is_kept": (SCALE, "set_tare", tare_of(is_kept=True)),
    "tools/edits/wc_indicator/a_second_tare_is_the_net_weight": (SCALE, "set_tare", a_second_tare_is_the_net_weight),
    "tools/edits/wc_indicator/shown_is_always_gross": (SCALE, "shown", SCALE.gross),
    "wc_indicator/must-fail/tare_in_motion": (SCALE, "set_tare", tare_of(may_move=True)),
    "tools/edits/wc_indicator/tare_of_a_moving_load": (SCALE, "set_tare", tare_of(when_full=True)),
    "wc_indicator/must-fail/tare_is_rounded": (SCALE, "set_tare", tare_of(rounded=True)),
    "tools/edits/wc_sma/a_question_ends_the_tare": (LINE, "act", a_question_ends_the_tare),
    "tools/edits/wc_sma/only_the_first_letter_counts": (LINE, "take", commands_by(lambda text: text[:1])),
    "tools/edits/wc_sma/small_letters_are_known": (LINE, "take", commands_by(lambda text: b"W" if text == b"w" else text)),
    "wc_sma/must-fail/a_long_chunk_is_a_fault": (LINE, "feed", a_long_chunk_is_a_fault),
    "wc_sma/must-fail/request_cut_is_forgotten": (LINE, "feed", request_cut_is_forgotten),
}


@contextmanager
def body(name):
    """The model with a wrong body in the place of the right one."""
    place, known, wrong = BODIES[name]
    with mock.patch.object(place, known, wrong, create=True):
        yield
