#!/usr/bin/env python3
"""A host of a scale, written from docs/INSTRUMENT.md, section 3, with pyserial: weighs the loads that controller.c simulates from counts.txt.

  host.py PORT

It prints each request that it shows, with the answer, and at the end how many statuses, modes and motions it has seen. An answer that comes
late, damaged or not at all is dropped by the rule of section 3.5 (`Scale.get_in_step`), and is never taken for the answer to a later request."""
import re
import sys
import time
from decimal import Decimal
from typing import NamedTuple

# LF, status, `1`, mode, motion, space, ten bytes of weight, unit, CR
FRAME = re.compile(rb"\n(?P<status>[ETIOUZ ])1(?P<mode>[TNG])(?P<motion>[ M]) (?P<weight>-{10}|(?= *-?[0-9.]{1,10}[gkt])[ 0-9.-]{10})(?P<unit>g  |kg |t  )\r")
STATUSES = {"E": "zero refused", "T": "tare refused", "I": "no sample yet", "O": "over", "U": "under", "Z": "centre of zero", " ": "weighs"}
MODES = {"G": "gross", "N": "net", "T": "tare"}
MARK = b"\n?\r"  # a request that the scale does not know, and the answer to it
TIME_OUT = 1  # seconds in which the answer to a request begins and ends
QUIET = 10  # time-outs with nothing from the scale, after which nothing is on its way any more
MOST_TRIES = 3
LONGEST_WAIT = 20  # seconds until a load is there


class Answer(NamedTuple):
    """The fields of an answer; the weight is None while the scale is not valid."""

    status: str
    mode: str
    is_stable: bool
    weight: Decimal | None
    unit: str

    def __str__(self):
        weight = "no weight" if self.weight is None else f"{self.weight} {self.unit}"
        return f"{STATUSES[self.status]}, {MODES[self.mode]}, {'stable' if self.is_stable else 'in motion'}, {weight}"


def answer_of(text, frame):
    """The answer to a request, None if these bytes cannot be one: only that to `M` has the mode `T`."""
    found = FRAME.fullmatch(frame)
    if not found or (found["mode"] == b"T") != (text == b"M"):
        return None
    weight = None if found["weight"] == b"-" * 10 else Decimal(found["weight"].decode().strip())
    return Answer(found["status"].decode(), found["mode"].decode(), found["motion"] == b" ", weight, found["unit"].decode().strip())


class Scale:
    """A scale at the other end of a port. Its `read_until` returns what has come, at the latest after the time-out."""

    def __init__(self, port):
        self.port, self.is_in_step, self.seen = port, False, set()

    def get_in_step(self):
        """Drops what is left of earlier requests: sends the mark once, and drops all up to its answer.

        Two marks on their way would have two answers, of which the second would be late: so it is sent again only after a long silence."""
        for _ in range(MOST_TRIES):
            self.port.write(MARK)
            came, silent = b"", 0
            while not came.endswith(MARK) and silent < QUIET:
                more = self.port.read_until(b"\r")
                came, silent = came + more, 0 if more else silent + 1
            if came.endswith(MARK):
                self.is_in_step = True
                return
        sys.exit("the scale does not answer")

    def exchange(self, text):
        """What comes in answer to a request, which its LF begins."""
        if not self.is_in_step:
            self.get_in_step()
        self.port.write(b"\n" + text + b"\r")
        return self.port.read_until(b"\r")

    def send(self, text):
        """The answer to a request that is sent once, None if it is late, damaged or lost. The request may have acted all the same."""
        answer = answer_of(text, self.exchange(text))
        self.is_in_step = answer is not None
        if answer:
            self.seen |= {("status", answer.status), ("mode", answer.mode), ("motion", " " if answer.is_stable else "M")}
        return answer

    def ask(self, text):
        """The answer to `W`, `M` or `C`, which may be sent again, since a second one does no more than the first."""
        while True:
            answer = self.send(text)
            if answer:
                return answer

    def command(self, text):
        """The answer to `Z` or `T`. If it was lost, it is sent again only if `W` and `M` are answered as before it; else that to `W` shows what is."""
        before = self.ask(b"W"), self.ask(b"M")
        while True:
            answer = self.send(text)
            if answer:
                return answer
            after = self.ask(b"W"), self.ask(b"M")
            if after != before:
                return after[0]

    def wait(self, what, holds):
        """Asks for the weight until this holds."""
        ends = time.monotonic() + LONGEST_WAIT
        while time.monotonic() < ends:
            answer = self.ask(b"W")
            if holds(answer):
                return answer
            time.sleep(0.01)
        sys.exit(f"{what} did not come")

    def wait_for_load(self, weight):
        return self.wait(weight, lambda answer: answer.is_stable and answer.weight == Decimal(weight))


def show(what, answer):
    print(f"{what:40} {answer or 'not known'}")


def weigh(scale):
    show("W, before the first sample", scale.ask(b"W"))
    show("Z", scale.command(b"Z"))
    show("T", scale.command(b"T"))
    show("M", scale.ask(b"M"))
    show("W, empty", scale.wait("empty", lambda answer: answer.is_stable and answer.status == "Z"))
    show("Z", scale.command(b"Z"))
    show("T, with nothing to tare", scale.command(b"T"))
    scale.wait("motion", lambda answer: not answer.is_stable and answer.weight and Decimal("0.5") < answer.weight < Decimal("1.5"))
    answer = scale.command(b"T")
    show("T, while the load comes", f"{STATUSES[answer.status]}, {MODES[answer.mode]}, {'stable' if answer.is_stable else 'in motion'}")
    show("W, 2.5 kg", scale.wait_for_load("2.500"))
    show("T", scale.command(b"T"))
    show("M", scale.ask(b"M"))
    show("W, 2.5 kg more", scale.wait_for_load("2.500"))
    show("W, too much", scale.wait("overload", lambda answer: answer.is_stable and answer.status == "O"))
    show("Z", scale.command(b"Z"))
    show("M", scale.ask(b"M"))
    show("W, farther from zero than 2 %", scale.wait_for_load("-2.195"))
    show("Z", scale.command(b"Z"))
    show("W, lifted", scale.wait("a lifted platform", lambda answer: answer.is_stable and answer.status == "U"))
    show("W, empty, tared", scale.wait_for_load("-2.500"))
    show("C", scale.ask(b"C"))
    show("w, which is no request", None if scale.exchange(b"w") == MARK else "an answer")


def main():
    if len(sys.argv) != 2 or sys.argv[1].startswith("-"):
        sys.exit(__doc__)
    import serial  # pyserial: only here, so that the rest is tried without a port

    scale = Scale(serial.Serial(sys.argv[1], 9600, timeout=TIME_OUT))  # 8 bits, no parity, 1 stop bit
    weigh(scale)
    seen = {kind: sum(1 for it, _ in scale.seen if it == kind) for kind in ("status", "mode", "motion")}
    print(f"seen: {seen['status']} of {len(STATUSES)} statuses, {seen['mode']} of {len(MODES)} modes, {seen['motion']} of 2 motions")
    return 0 if sum(seen.values()) == len(STATUSES) + len(MODES) + 2 else 1


if __name__ == "__main__":
    sys.exit(main())
