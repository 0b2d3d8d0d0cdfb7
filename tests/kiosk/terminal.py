"""A program in a pseudo-terminal, and what the terminal shows of it: rows and columns of characters."""
import fcntl
import os
import pty
import re
import select
import signal
import struct
import termios
import time

from shared import check

PATIENCE = 15
GARBAGE = "#"  # what a resize leaves everywhere, for the program to draw over
TOKEN = re.compile(rb"\x1b\[([0-9;?]*)([@-~])|\x1b\[[0-9;?]*$|\x1b$|\x1b.|[\x00-\x1f\x7f-\xff]|[ -~]+", re.S)


class Grid:
    """Understands the escapes that the kiosk uses. All others, and whatever would move the panel, are noted as odd."""

    def __init__(self, rows, columns):
        self.row, self.column, self.marks, self.rest, self.odd = 0, 0, False, b"", []
        self.fill(rows, columns, " ")

    def fill(self, rows, columns, letter):
        self.rows, self.columns = rows, columns
        self.cells = [[letter] * columns for _ in range(rows)]
        self.marked = [False] * rows
        self.row, self.column = min(self.row, rows - 1), min(self.column, columns - 1)

    def feed(self, data):
        data, self.rest = self.rest + data, b""
        for token in TOKEN.finditer(data):
            text, final = token[0], token[2]
            if final:
                self.escape(token[1].decode(), final.decode())
            elif re.fullmatch(rb"\x1b(\[[0-9;?]*)?", text) and token.end() == len(data):
                self.rest = text
            elif len(text) == 1 and not b" " <= text <= b"~":
                self.control(text)
            elif text.startswith(b"\x1b"):
                self.odd.append(f"the escape {text!r}")
            else:
                self.write(text.decode())

    def escape(self, numbers, final):
        if final == "H" and re.fullmatch(r"\d+;\d+", numbers):
            row, column = (int(n) for n in numbers.split(";"))
            self.row, self.column = min(row, self.rows) - 1, min(column, self.columns) - 1
        elif final == "K" and numbers == "":
            self.cells[self.row][self.column:] = " " * (self.columns - self.column)
        elif final == "J" and numbers == "":
            self.cells[self.row][self.column:] = " " * (self.columns - self.column)
            self.cells[self.row + 1:] = [[" "] * self.columns for _ in range(self.row + 1, self.rows)]
        elif final == "m" and numbers in ("0", "7"):
            self.marks = numbers == "7"
        else:
            self.odd.append(f"the escape {numbers}{final}")

    def control(self, text):
        if text == b"\r":
            self.column = 0
        elif text == b"\n" and self.row < self.rows - 1:
            self.row += 1
        elif text == b"\n":
            self.odd.append("it scrolls")
            self.cells = self.cells[1:] + [[" "] * self.columns]
        else:
            self.odd.append(f"the byte {text!r}")

    def write(self, text):
        for letter in text:
            if self.column == self.columns - 1:
                self.odd.append(f"the last column of row {self.row + 1}")
            if self.column >= self.columns:
                self.row, self.column = min(self.row + 1, self.rows - 1), 0
            if self.column == 0:
                self.marked[self.row] = self.marks
            self.cells[self.row][self.column] = letter
            self.column += 1

    def lines(self):
        return ["".join(row).rstrip() for row in self.cells]


class Terminal:
    """A program in a pseudo-terminal. `term` is its TERM, None for none."""

    def __init__(self, program, rows=24, columns=80, term="xterm", folder=None):
        size = struct.pack("HHHH", rows, columns, 0, 0)
        self.pid, self.fd = pty.fork()
        if self.pid == 0:
            try:
                fcntl.ioctl(0, termios.TIOCSWINSZ, size)
                os.chdir(folder or ".")
                os.environ.pop("TERM", None)
                os.environ.update({"TERM": term} if term is not None else {})
                os.execv(program, ["kiosk"])
            finally:
                os._exit(127)
        os.set_blocking(self.fd, False)
        self.screen = Grid(rows, columns)
        self.raw, self.ended, self.patience = b"", False, PATIENCE

    def resize(self, rows, columns):
        """Another size; nothing of what was there is left in its place."""
        self.screen.fill(rows, columns, GARBAGE)
        fcntl.ioctl(self.fd, termios.TIOCSWINSZ, struct.pack("HHHH", rows, columns, 0, 0))

    def pump(self, wait):
        if self.ended or not select.select([self.fd], [], [], wait)[0]:
            return
        try:
            data = os.read(self.fd, 65536)
        except OSError:
            data = b""
        self.ended = not data
        self.raw += data
        self.screen.feed(data)

    def type(self, data):
        """All bytes, read while they are written."""
        end = time.time() + self.patience
        while data and not self.ended and time.time() < end:
            if select.select([], [self.fd], [], 0.05)[1]:
                try:
                    data = data[os.write(self.fd, data[:512]):]
                except BlockingIOError:
                    pass
            self.pump(0)

    def text(self):
        return "\n".join(self.screen.lines())

    def until(self, good, what, told):
        """Waits until `good()` holds. After a failure it is less patient."""
        end = time.time() + self.patience
        while not good() and not self.ended and time.time() < end:
            self.pump(0.05)
        held = bool(good())
        self.patience = self.patience if held else 0.5
        check(held, what if held else f"{what}: {told()}")
        return held

    def leave(self, status, what):
        """Waits for its end."""
        end, got = time.time() + self.patience, None
        while got is None and time.time() < end:
            self.pump(0.05)
            pid, code = os.waitpid(self.pid, os.WNOHANG)
            got = code if pid else None
        if got is None:
            os.kill(self.pid, signal.SIGKILL)
            os.waitpid(self.pid, 0)
        while not self.ended and select.select([self.fd], [], [], 0)[0]:
            self.pump(0)
        os.close(self.fd)
        good = got is not None and os.WIFEXITED(got) and os.WEXITSTATUS(got) == status
        check(good, f"{what}: ended with {got}, due {status}")
