"""The one way in which everything here says no."""


class Refusal(Exception):
    """A refusal of document 01: its number, the line it is about and the field (0 where none is named)."""

    def __init__(self, number, line=1, field=0):
        super().__init__(number, line, field)
        self.number = number
        self.line = line
        self.field = field

    def at_line(self, line):
        """Gives the same refusal, said of another line."""
        return Refusal(self.number, line, self.field)
