"""A refusal: a number and a place (docs/REFUSALS.md)."""


class Refused(Exception):
    """An input that breaks a rule."""

    def __init__(self, number, place):
        super().__init__(number, place)
        self.number, self.place = number, place

    def line(self):
        """The last line of standard output."""
        return f"refused {self.number} {self.place}\n"
