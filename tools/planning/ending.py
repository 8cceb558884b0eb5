"""How tools/plan ends without an answer: one line and an exit status, 1 for a refusal, 2 for bad usage or files."""
import refusals


class Ending(Exception):
    """The line that is printed, and the exit status."""

    def __init__(self, status, text):
        super().__init__(text)
        self.status, self.text = status, text

    def within(self, place):
        """The same, said of a place of the plan."""
        return Ending(self.status, "%s: %s" % (place, self.text))


def bad(text):
    return Ending(2, text)


def refused(text):
    return Ending(1, text)


def numbered(number, before=""):
    """A refusal of the library, by its row of docs/REFUSALS.md: `refused 12: what; what to do`."""
    return Ending(1, before + refusals.advised(number))


def one_line(text, most=300):
    """Text from outside as a part of one line: what can't be printed is a question mark, and what is long is cut."""
    shown = "".join(c if c.isprintable() else "?" for c in text)
    return shown if len(shown) <= most else shown[:most] + ".."
