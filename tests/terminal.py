"""A program at a terminal, and what the screen shows.

Usage: terminal.py COLUMNS [SHOWN TYPED].. -- COMMAND [WORD ..]
  types each text TYPED once the screen ends with the text before it, spaces at the ends of lines aside; both are read as Python's escapes.
  Prints the screen at the end. The status is the command's; 99 where the screen doesn't come to show such a text within 20 seconds.
"""
import fcntl
import os
import pty
import re
import select
import signal
import struct
import sys
import termios
import time

SEQUENCE = re.compile(rb"\x1b\[([?0-9;]*)([A-Za-z@])|\x1b[=>]")


class Screen:
    """What a terminal shows of the bytes that it is sent: lines of text, and where the cursor is."""

    def __init__(self):
        self.lines, self.row, self.column, self.rest = [[]], 0, 0, b""

    def take(self, piece):
        self.rest += piece
        while self.rest:
            if self.rest[:1] != b"\x1b":
                self.put(self.rest[:1])
                self.rest = self.rest[1:]
            elif found := SEQUENCE.match(self.rest):
                self.move((found[2] or b"").decode(), int(found[1] or 1) if (found[1] or b"1").isdigit() else 1)
                self.rest = self.rest[found.end() :]
            else:
                return

    def put(self, byte):
        if byte == b"\n":
            self.row += 1
            self.lines += [[]] * (self.row == len(self.lines))
        elif byte == b"\r":
            self.column = 0
        elif byte == b"\b":
            self.column = max(self.column - 1, 0)
        elif byte >= b" ":
            line = self.lines[self.row]
            line += [" "] * (self.column + 1 - len(line))
            line[self.column] = chr(byte[0])
            self.column += 1

    def move(self, name, count):
        line = self.lines[self.row]
        if name == "K":
            del line[self.column :]
        elif name == "P":
            del line[self.column : self.column + count]
        elif name == "C":
            self.column += count
        elif name == "D":
            self.column = max(self.column - count, 0)

    def text(self):
        return "\n".join("".join(line).rstrip() for line in self.lines).rstrip("\n")


def read(terminal, seconds):
    """The next bytes; nothing where none come, or no more do."""
    try:
        return os.read(terminal, 4096) if select.select([terminal], [], [], seconds)[0] else b""
    except OSError:
        return b""


def main():
    at = sys.argv.index("--")
    columns, steps, command = int(sys.argv[1]), [it.encode().decode("unicode_escape") for it in sys.argv[2:at]], sys.argv[at + 1 :]
    begin, go = os.pipe()
    child, terminal = pty.fork()
    if child == 0:
        for it in (signal.SIGINT, signal.SIGQUIT, signal.SIGHUP):
            signal.signal(it, signal.SIG_DFL)
        os.read(begin, 1)
        os.execvpe(command[0], command, {**os.environ, "TERM": "xterm"})
    fcntl.ioctl(terminal, termios.TIOCSWINSZ, struct.pack("HHHH", 24, columns, 0, 0))
    os.write(go, b"!")
    screen, status = Screen(), None
    for shown, typed in zip(steps[::2], steps[1::2]):
        late = time.monotonic() + 20
        while not screen.text().endswith(shown):
            piece = read(terminal, max(late - time.monotonic(), 0))
            screen.take(piece)
            if not piece:
                os.kill(child, signal.SIGKILL)
                status = 99
                break
        if status:
            break
        os.write(terminal, typed.encode())
    while piece := read(terminal, 20 if status is None else 1):
        screen.take(piece)
    print(screen.text())
    ended = os.waitstatus_to_exitcode(os.waitpid(child, 0)[1])
    sys.exit(ended if status is None else status)


if __name__ == "__main__":
    main()
