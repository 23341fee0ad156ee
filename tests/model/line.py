"""The line to the host (docs/INSTRUMENT.md, 3): requests, and answers of 20 bytes."""

LF, CR, ESC = 0x0A, 0x0D, 0x1B


def number_text(value, decimals):
    """A weight in units of the last decimal, with its point."""
    digits = str(abs(value)).rjust(decimals + 1, "0")
    whole, part = (digits[:-decimals], digits[-decimals:]) if decimals else (digits, "")
    return ("-" if value < 0 else "") + whole + ("." + part if decimals else "")


class Line:
    """The line of one indicator; `open` holds the text of the open request, None outside one."""

    def __init__(self, indicator):
        self.indicator, self.open = indicator, None

    def feed(self, content):
        """Takes bytes of the host; gives the answers, joined."""
        return b"".join(self.take(byte) for byte in content)

    def take(self, byte):
        """Takes one byte; gives the answer that it brings, if any."""
        if byte == LF:
            self.open = b""
        elif byte == ESC:
            self.open = None
        elif byte == CR and self.open is not None:
            text, self.open = self.open, None
            return self.act(text)
        elif byte != CR and self.open is not None:
            self.open += bytes([byte])
        return b""

    def act(self, text):
        """Does what a request says, and answers it."""
        if text == b"W":
            return self.answer()
        if text == b"M":
            return self.answer(tare=True)
        if text == b"Z":
            return self.answer(refused="" if self.indicator.set_zero() else "E")
        if text == b"T":
            return self.answer(refused="" if self.indicator.set_tare() else "T")
        if text == b"C":
            self.indicator.clear_tare()
            return self.answer()
        return b"\n?\r"

    def status(self):
        """The status of an answer whose command was not refused."""
        scale = self.indicator
        if not scale.samples:
            return "I"
        if scale.over():
            return "O"
        if scale.under():
            return "U"
        return "Z" if scale.centre_of_zero() else " "

    def answer(self, refused="", tare=False):
        """An answer with a weight, or with the tare value."""
        scale = self.indicator
        mode = "T" if tare else "N" if scale.tare_active else "G"
        motion = " " if scale.stable() else "M"
        weight = "-" * 10
        if scale.valid():
            weight = number_text(scale.tare_value() if tare else scale.shown(), scale.plate.decimals)
        text = "\n" + (refused or self.status()) + "1" + mode + motion + " " + weight.rjust(10) + scale.plate.unit.ljust(3) + "\r"
        return text.encode()
