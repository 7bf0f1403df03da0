"""What a client is judged by: `tabd shell`, whose frames the proved client of tab_wire writes and whose texts are proved to be a script's. Each
line is asked by a shell of its user over a real server, and every frame that passes is kept, so that a client can be asked for the same frames
and told the same replies."""
import os
import select
import socket
import struct
import subprocess
import threading

PATIENCE = 60
HELLO, OPEN, CLOSE = 0x01, 0x0B, 0x0E
GOES_ON = (0x82, 0x85, 0x86)  # a cell, a row and the end of a range: more of the same reply comes
MARK = b"close 4294967291\n"  # a line that asks for a session that there never is: its reply tells that the one before is whole
MARK_FRAME = struct.pack(">IBI", 5, CLOSE, 0xFFFFFFFB)
MARK_REPLY = bytes.fromhex("00000006810ffffffffb")
MARK_TEXT = b"refused 15 NoSession 4294967291\n"


class Ended(Exception):
    """The other side has ended the connection."""


def read_exactly(stream, length):
    """So many bytes of a socket."""
    got = bytearray()
    while len(got) < length:
        piece = stream.recv(length - len(got))
        if not piece:
            raise Ended(bytes(got))
        got += piece
    return bytes(got)


def read_frame(stream):
    """A frame with its length."""
    head = read_exactly(stream, 4)
    return head + read_exactly(stream, struct.unpack(">I", head)[0])


def read_reply(stream):
    """All frames of one reply."""
    told = b""
    while True:
        frame = read_frame(stream)
        told += frame
        if frame[4] not in GOES_ON:
            return told


def user_of(frame):
    """Whom a Hello names."""
    return frame[9:].decode("ascii")


class Server:
    """The program as a server at a socket file or on a port of its own."""

    def __init__(self, program, folder, port=False, words=()):
        self.file = os.path.join(folder, "tabd.sock")
        if os.path.exists(self.file):
            os.unlink(self.file)
        self.place = str(free_port()) if port else self.file
        where = ["--port", self.place] if port else ["--socket", self.place]
        self.process = subprocess.Popen([program, "serve", *where, "--workers", "64", "--compactors", "0", *words],
                                        stdin=subprocess.DEVNULL, stdout=subprocess.PIPE)
        ready, _, _ = select.select([self.process.stdout], [], [], PATIENCE)
        if not ready or not self.process.stdout.readline().startswith(b"listening"):
            raise RuntimeError("the server doesn't listen")

    def __enter__(self):
        return self

    def __exit__(self, *_):
        self.process.kill()
        self.process.communicate()


def free_port():
    with socket.create_server(("127.0.0.1", 0)) as probe:
        return probe.getsockname()[1]


def listener_at(file):
    """A listening socket at this file."""
    if os.path.exists(file):
        os.unlink(file)
    stream = socket.socket(socket.AF_UNIX)
    stream.bind(file)
    stream.listen(64)
    return stream


class Shell:
    """One user's shell, whose connection passes here on its way to the server."""

    def __init__(self, program, folder, server, user):
        self.user, self.exchanges = user, []
        file = os.path.join(folder, "shell.sock")
        with listener_at(file) as listener:
            self.process = subprocess.Popen([program, "shell", "--socket", file, "--user", user], stdin=subprocess.PIPE, stdout=subprocess.PIPE)
            self.near, _ = listener.accept()
        self.far = socket.socket(socket.AF_UNIX)
        self.far.connect(server.place)
        self.thread = threading.Thread(target=self.pass_on, daemon=True)
        self.thread.start()

    def pass_on(self):
        """Hands on each request and its whole reply, until the shell ends."""
        try:
            while True:
                frame = read_frame(self.near)
                if frame == MARK_FRAME:
                    self.near.sendall(MARK_REPLY)
                    continue
                self.far.sendall(frame)
                told = read_reply(self.far)
                self.exchanges.append((frame, told))
                self.near.sendall(told)
        except (Ended, OSError):
            pass

    def ask(self, line):
        """What is printed for the line."""
        self.process.stdin.write(line + b"\n" + MARK)
        self.process.stdin.flush()
        printed = b""
        while True:
            text = self.process.stdout.readline()
            if text == MARK_TEXT:
                return printed
            if not text:
                raise RuntimeError("the shell has ended behind %r" % line)
            printed += text

    def close(self):
        self.process.stdin.close()
        self.process.wait(PATIENCE)
        self.process.stdout.close()
        self.thread.join(PATIENCE)
        self.near.close()
        self.far.close()


class Transcript:
    """What a script asks and is told: its lines, the text that is printed for each, and by user the frames of each exchange."""

    def __init__(self, title, lines):
        self.title, self.lines, self.printed, self.exchanges = title, lines, [], {}

    @property
    def text(self):
        return b"".join(self.printed)

    @property
    def is_silent(self):
        """Whether nothing is asked."""
        return not any(self.exchanges.values())


def transcribe(program, folder, server, title, lines):
    """Asks the lines, of which `as USER` changes the user, and gives the transcript."""
    made, shells, user = Transcript(title, lines), {}, "root"
    try:
        for line in lines:
            named = name_in_as(line)
            if named is not None:
                user = named
                made.printed.append(b"")
                continue
            if user not in shells:
                shells[user] = Shell(program, folder, server, user)
            made.printed.append(shells[user].ask(line))
    finally:
        for shell in shells.values():
            shell.close()
    made.exchanges = {shell.user: shell.exchanges for shell in shells.values() if len(shell.exchanges) > 1}
    return made


def name_in_as(line):
    """The user of a line `as USER`, or None."""
    words = line.split(b" ")
    words = [word for word in words if word]
    if len(words) != 2 or words[0] != b"as" or line.startswith(b"#"):
        return None
    name = words[1]
    good = 1 <= len(name) <= 128 and all(chr(byte).isalnum() and byte < 128 or byte in b"_-." for byte in name)
    return name.decode("ascii") if good else None
