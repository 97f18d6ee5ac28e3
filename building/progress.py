"""A line that tells how far work is, on standard error: redrawn each second in a terminal, written
once a minute elsewhere."""
import os
import sys
import time

BAR = 10  # columns of the bar
WIDTH = 80  # columns of a terminal that does not tell
OFTEN, SELDOM = 1, 60  # seconds between two lines in a terminal, and elsewhere
CLEAR = "\r\033[K"


def draw(went, left):
    """A bar for work that went on for some seconds and may take some more; it is never full."""
    whole = went + left
    filled = min(BAR - 1, int(BAR * went / whole)) if whole > 0 else 0
    return f"[{'#' * filled}{'.' * (BAR - filled)}]"


def shorten(text, columns):
    """A text that fits into so many columns."""
    return text if len(text) <= columns else f"{text[:columns - 2]}.."


class Line:
    """The line of one command, whose name begins it."""

    def __init__(self, name, stream=None, clock=time.monotonic):
        self.name, self.stream, self.clock = name, stream or sys.stderr, clock
        self.is_terminal, self.told, self.is_drawn = self.stream.isatty(), None, False

    def columns(self):
        try:
            return os.get_terminal_size(self.stream.fileno()).columns or WIDTH
        except OSError:
            return WIDTH

    def is_due(self):
        pause = OFTEN if self.is_terminal else SELDOM
        return self.told is None or self.clock() - self.told >= pause

    def show(self, went, left, done, now):
        """Tells, if it is time to, what is done after so many seconds, how many are left, and what
        is being done."""
        if not self.is_due():
            return
        self.told = self.clock()
        minutes, more = int(went // 60), max(1, round(left / 60))
        bar, times = draw(went, left), f"{minutes} min, {more} min left"
        whole = f"{self.name}: {bar} {done} after {times}: {now}"
        if self.is_terminal:
            self.stream.write(CLEAR + shorten(whole, self.columns() - 1))
            self.is_drawn = True
        else:
            self.stream.write(f"{whole}\n")
        self.stream.flush()

    def tell(self, text):
        """Writes a line that stays."""
        self.clear()
        self.stream.write(f"{self.name}: {text}\n")
        self.stream.flush()

    def clear(self):
        """Removes the line from the terminal, for what comes in its place."""
        if self.is_drawn:
            self.stream.write(CLEAR)
            self.stream.flush()
            self.is_drawn = False
