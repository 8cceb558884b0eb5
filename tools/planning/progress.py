"""How far a long answer is, on one line of a terminal; nothing where standard error isn't one."""
import time

PATIENCE, BETWEEN = 2.0, 0.2        # seconds: before the first line, and from one to the next


class Progress:
    def __init__(self, stream):
        self.stream = stream if stream is not None and stream.isatty() else None
        self.next, self.width = time.monotonic() + PATIENCE, 0

    def counted(self, what, items):
        """The items one by one, and what is being done with which of them."""
        items = list(items)
        for k, item in enumerate(items):
            if self.stream and time.monotonic() >= self.next:
                self.show("%s: %d of %d" % (what, k + 1, len(items)))
            yield item

    def show(self, text):
        self.stream.write("\r" + text.ljust(self.width))
        self.stream.flush()
        self.next, self.width = time.monotonic() + BETWEEN, max(self.width, len(text))

    def clear(self):
        """Leaves the line empty for what is printed next."""
        if self.width:
            self.show("")
            self.stream.write("\r")
            self.stream.flush()
            self.width = 0


SILENT = Progress(None)
