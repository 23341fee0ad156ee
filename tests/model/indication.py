"""What the indicator shows (docs/INSTRUMENT.md, 2): it follows from the plate, the samples and three commands."""


def nearest(numerator, denominator):
    """The whole number nearest to a quotient with a denominator above 0; of two, the one farther from 0."""
    size = (2 * abs(numerator) + denominator) // (2 * denominator)
    return size if numerator >= 0 else -size


class Indicator:
    """The history of an indicator: all its samples, its zero point, its tare."""

    def __init__(self, plate):
        self.plate, self.samples = plate, []
        self.zero, self.tare, self.tare_active = plate.zero_counts, 0, False

    def sample(self, counts):
        """A sample of the converter."""
        self.samples.append(counts)

    def load(self):
        """r: the last sample less the zero point."""
        return self.samples[-1] - self.zero

    def in_intervals(self, counts):
        """Counts as the nearest number of intervals."""
        return nearest(counts * self.plate.intervals, self.plate.span_counts)

    def over(self):
        """Whether the scale is overloaded."""
        return bool(self.samples) and self.in_intervals(self.load()) > self.plate.intervals + 9

    def under(self):
        """Whether the load is too far below zero."""
        return bool(self.samples) and self.in_intervals(self.load()) < -20

    def valid(self):
        """Whether there is a weight."""
        return bool(self.samples) and not self.over() and not self.under()

    def stable(self):
        """Whether the last samples spread over no more than half an interval."""
        last = self.samples[-self.plate.window :]
        if len(last) < self.plate.window:
            return False
        return 2 * (max(last) - min(last)) * self.plate.intervals <= self.plate.span_counts

    def centre_of_zero(self):
        """Whether the gross is within a quarter of an interval."""
        return bool(self.samples) and 4 * abs(self.load() * self.plate.intervals) <= self.plate.span_counts

    def gross(self):
        """Gross in units of the last decimal, while valid."""
        return self.in_intervals(self.load()) * self.plate.e

    def net(self):
        """Net in units of the last decimal, while valid."""
        return self.in_intervals(self.load() - self.tare) * self.plate.e

    def tare_value(self):
        """The tare in units of the last decimal."""
        return self.in_intervals(self.tare) * self.plate.e

    def shown(self):
        """Net while a tare is active, else gross."""
        return self.net() if self.tare_active else self.gross()

    def set_zero(self):
        """The zero command; whether it was accepted."""
        away = abs(self.samples[-1] - self.plate.zero_counts) if self.samples else 0
        if not self.stable() or 50 * away > self.plate.span_counts:
            return False
        self.zero = self.samples[-1]
        self.clear_tare()
        return True

    def set_tare(self):
        """The tare command; whether it was accepted."""
        if not self.stable() or not 1 <= self.in_intervals(self.load()) <= self.plate.intervals:
            return False
        self.tare, self.tare_active = self.load(), True
        return True

    def clear_tare(self):
        """The command that clears the tare."""
        self.tare, self.tare_active = 0, False
