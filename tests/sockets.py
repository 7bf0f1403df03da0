"""What tests/socket.sh tests. Its last line counts what passed and failed.

As root it tries other users' rights too."""

import fcntl
import os
import select
import socket
import stat
import subprocess
import sys
import time

from serving import HELLO, MAKE, OK, PATIENCE, PROGRAM, count, read_exactly, read_frame, run, run_parts

sys.path.insert(0, os.path.join(os.path.dirname(os.path.abspath(__file__)), "../clients/python"))
import tabd  # noqa: E402

NOBODY = 65534


class FileServer:
    """A server at a socket file, once it listens."""

    def __init__(self, name, *words):
        self.name = name
        self.process = subprocess.Popen([PROGRAM, "serve", "--socket", name, *words], stdin=subprocess.DEVNULL, stdout=subprocess.PIPE, stderr=subprocess.PIPE)
        ready, _, _ = select.select([self.process.stdout], [], [], PATIENCE)
        self.said = self.process.stdout.readline() if ready else b""

    def connect(self):
        stream = socket.socket(socket.AF_UNIX)
        stream.settimeout(PATIENCE)
        stream.connect(self.name)
        return stream

    def ends(self):
        """The status, or None where it goes on."""
        try:
            return self.process.wait(timeout=PATIENCE)
        except subprocess.TimeoutExpired:
            return None

    def kill(self):
        self.process.kill()
        self.process.communicate()

    def __enter__(self):
        return self

    def __exit__(self, *_):
        if self.process.poll() is None:
            self.process.kill()
        self.process.communicate()


def answers(name):
    with socket.socket(socket.AF_UNIX) as stream:
        stream.settimeout(PATIENCE)
        stream.connect(name)
        stream.sendall(HELLO)
        return read_frame(stream) == OK


def rights():
    os.mkdir("rights")
    for number, (words, mode) in enumerate({(): 0o600, ("--socket-mode", "660"): 0o660, ("--socket-mode", "0777"): 0o777, ("--socket-mode", "0"): 0}.items()):
        name = f"rights/a file {number}"
        with FileServer(name, *words) as server:
            held = os.lstat(name)
            count(f"{words}: it says so", server.said == b"listening %s\n" % name.encode(), server.said)
            count(f"{words}: it is a socket of this mode", (stat.S_ISSOCK(held.st_mode), stat.S_IMODE(held.st_mode), held.st_nlink) == (True, mode, 1), oct(held.st_mode))
            count(f"{words}: nothing else is there", os.listdir("rights") == [f"a file {number}"], os.listdir("rights"))
            if mode or os.getuid() == 0:
                count(f"{words}: it answers", answers(name))
        os.remove(name)
    with FileServer("here") as server:
        count("in the folder where it runs", server.said == b"listening here\n" and answers("here"))
    # as one that was killed while it began leaves it
    os.makedirs("begun/.tabd0")
    with FileServer("begun/s") as server:
        count("beside a folder that is left over", server.said == b"listening begun/s\n" and sorted(os.listdir("begun")) == [".tabd0", "s"], os.listdir("begun"))


def group():
    """The group that a folder gives."""
    groups = [12345] if os.getuid() == 0 else [gid for gid in os.getgroups() if gid != os.getgid()]
    if not groups:
        return
    os.mkdir("group")
    os.chown("group", -1, groups[0])
    os.chmod("group", 0o2710)
    with FileServer("group/s", "--socket-mode", "660"):
        held = os.lstat("group/s")
        count("the folder's group, where its rights give it", (held.st_gid, stat.S_IMODE(held.st_mode)) == (groups[0], 0o660), held)


def as_another(does, *words):
    """The status of this under another user and group."""
    child = os.fork()
    if child == 0:
        status = 9
        try:
            os.setgroups([words[0]] if words else [])
            os.setgid(NOBODY)
            os.setuid(NOBODY)
            status = does()
        finally:
            os._exit(status)
    return child


def ended(child):
    return os.waitstatus_to_exitcode(os.waitpid(child, 0)[1])


def connects(name):
    """0 where it is connected to, 1 where the rights forbid it."""
    try:
        with socket.socket(socket.AF_UNIX) as stream:
            stream.connect(name)
        return 0
    except PermissionError:
        return 1


def others():
    """Who may connect, and that nobody else may while a server begins."""
    if os.getuid() != 0:
        return
    os.chmod(".", 0o755)
    os.mkdir("others")
    os.chown("others", -1, 12345)
    os.chmod("others", 0o2755)
    with FileServer("others/s"):
        count("another user may not connect", ended(as_another(lambda: connects("others/s"))) == 1)
    with FileServer("others/s", "--socket-mode", "660"):
        count("nor who isn't in its group", ended(as_another(lambda: connects("others/s"))) == 1)
        count("who is in its group may", ended(as_another(lambda: connects("others/s"), 12345)) == 0)
    with FileServer("others/s", "--socket-mode", "666"):
        count("all may where its mode says so", ended(as_another(lambda: connects("others/s"))) == 0)
    os.remove("others/s")

    def tries():
        until = time.monotonic() + 4
        while time.monotonic() < until:
            for found, _, names in os.walk("others"):
                for name in names:
                    try:
                        if connects(f"{found}/{name}") == 0:
                            return 0
                    except OSError:
                        pass
        return 1

    watching = as_another(tries)
    until, began = time.monotonic() + 4, 0
    while time.monotonic() < until or began < 6 and time.monotonic() < until + PATIENCE:
        with FileServer("others/s") as server:
            began += server.said != b""
    count("nobody else connects while a server begins", ended(watching) == 1 and began > 5, began)


def which(name):
    """Which file it is, and since when. A connection may renew its access time, which isn't compared."""
    found = os.lstat(name)
    return found.st_ino, found.st_ctime_ns


def one_server_a_file():
    with FileServer("one") as server:
        held = which("one")
        ran = run("serve", "--socket", "one")
        count("a second server is refused", (ran.returncode, ran.stdout, ran.stderr) == (1, b"", b"fault: one: another server has it\n"), ran)
        count("and the first goes on", which("one") == held and answers("one"))
        server.kill()
        count("a dead server's file is left", os.path.lexists("one"))
        with FileServer("one", "--accept", "1"):
            count("and replaced", which("one") != held)
            count("by one that answers", answers("one"))
    for _ in range(20):
        FileServer("many").kill()
        begun = [subprocess.Popen([PROGRAM, "serve", "--socket", "many"], stdin=subprocess.DEVNULL, stdout=subprocess.PIPE, stderr=subprocess.PIPE) for _ in range(4)]
        told = []
        for process in begun:
            ready, _, _ = select.select([process.stdout], [], [], PATIENCE)
            told.append(process.stdout.readline() if ready else b"?")
        one = told.count(b"listening many\n") == 1 and told.count(b"") == 3 and answers("many")
        for process in begun:
            process.kill()
        said = sorted(process.communicate()[1] for process in begun)
        if not one or said != [b""] + 3 * [b"fault: many: another server has it\n"]:
            count("of servers that begin at once one gets the name", False, (told, said))
            break
    else:
        count("of servers that begin at once one gets the name", True)


def locked_folders():
    os.mkdir("held")
    folder = os.open("held", os.O_RDONLY)
    fcntl.flock(folder, fcntl.LOCK_EX)
    began = time.monotonic()
    ran = run("serve", "--socket", "held/s")
    count("a locked folder is waited for", 4.5 < time.monotonic() - began < PATIENCE)
    count("and then refused", (ran.returncode, ran.stdout, ran.stderr) == (1, b"", b"fault: held/s: another program has its folder locked\n"), ran)
    count("and nothing is made there", os.listdir("held") == [], os.listdir("held"))
    fcntl.flock(folder, fcntl.LOCK_UN)
    with FileServer("held/s", "--accept", "1") as server:
        fcntl.flock(folder, fcntl.LOCK_EX | fcntl.LOCK_NB)
        count("a server has it locked no longer than it begins", answers("held/s"))
        count("one that can't lock it ends all the same", server.ends() == 0)
        count("and leaves its file", os.path.lexists("held/s"))
    os.close(folder)
    with FileServer("held/s", "--accept", "1") as server:
        count("which the next replaces", answers("held/s") and server.ends() == 0 and os.listdir("held") == [], os.listdir("held"))


def what_is_no_socket():
    with open("file", "w") as file:
        file.write("mine")
    os.mkdir("folder")
    os.symlink("nowhere", "link")
    for name in ("file", "folder", "link"):
        held = os.lstat(name)
        ran = run("serve", "--socket", name)
        count(f"a {name} isn't replaced", (ran.returncode, ran.stdout, ran.stderr) == (1, b"", f"fault: {name}: it is there, and is no socket\n".encode()), ran)
        count(f"and the {name} stays", os.lstat(name).st_ino == held.st_ino)
    with socket.socket(socket.AF_UNIX, socket.SOCK_DGRAM) as other:
        other.bind("datagrams")
        ran = run("serve", "--socket", "datagrams")
        count("nor is a socket of another kind", ran.returncode == 1 and ran.stderr.startswith(b"fault: datagrams: it can't be listened on: ") and os.path.lexists("datagrams"), ran)
    ran = run("serve", "--socket", "missing/s")
    count("a folder that isn't there", (ran.returncode, ran.stderr) == (1, b"fault: missing/s: it can't be listened on: No such file or directory (os error 2)\n"), ran)


def names_too_long():
    folder = "d" * 60 + "/" + "e" * 35
    os.makedirs(folder)
    for name, fits in {f"{folder}/{'n' * 10}": True, f"{folder}/{'n' * 11}": False, f"{folder}f/n": False, "n" * 107: True, "n" * 108: False}.items():
        os.makedirs(os.path.dirname(name) or ".", exist_ok=True)
        if fits:
            with FileServer(name):
                count(f"{len(name)} bytes fit", answers(name))
        else:
            ran = run("serve", "--socket", name)
            told = b"fault: %s: the name is too long for a socket: 107 bytes at most, 97 of them up to its last slash\n" % name.encode()
            count(f"{len(name)} bytes don't fit", (ran.returncode, ran.stdout, ran.stderr) == (1, b"", told), ran)


def the_end():
    with FileServer("end", "--accept", "1") as server:
        with server.connect() as stream:
            stream.sendall(HELLO)
            count("a connection is answered", read_frame(stream) == OK)
        count("a server that ends in order", server.ends() == 0)
        count("takes its file away", not os.path.lexists("end"))
    with FileServer("end", "--accept", "1") as server, server.connect() as stream:
        os.remove("end")
        with open("end", "w") as file:
            file.write("mine")
        stream.close()
        count("but for what has its name since", server.ends() == 0 and open("end").read() == "mine")
    full = os.open("/dev/full", os.O_WRONLY)
    ran = run("serve", "--socket", "silent", stdout=full)
    os.close(full)
    count("one that can't say it listens ends", ran.returncode == 1 and not os.path.lexists("silent"), ran)
    with FileServer("log", "--log", "--accept", "1") as server:
        server.connect().close()
        told = server.process.communicate(timeout=PATIENCE)[1]
        count("a log names no address", b" peer=socket " in told and told.endswith(b" ended=end\n"), told)
    with FileServer("idle", "--idle", "1") as server, server.connect() as stream:
        stream.sendall(HELLO)
        began = time.monotonic()
        count("whoever says nothing is left", read_exactly(stream, 6) == OK and 0.5 < time.monotonic() - began < 10)


def command_lines():
    lines = {
        "neither": ["serve"],
        "both": ["serve", "--port", "1", "--socket", "s"],
        "no file": ["serve", "--socket"],
        "a mode of a port": ["serve", "--port", "1", "--socket-mode", "600"],
        "a shell of neither": ["shell", "--user", "root"],
        "a shell of both": ["shell", "--user", "root", "--port", "1", "--socket", "s"],
        "a shell's mode": ["shell", "--user", "root", "--socket", "s", "--socket-mode", "600"],
        **{f"the mode {mode!r}": ["serve", "--socket", "s", "--socket-mode", mode] for mode in ("", "8", "rw", "1000", "+660", "-1", "66 ")},
    }
    for name, words in lines.items():
        ran = run(*words)
        count(f"{name}: a refused command line", (ran.returncode, ran.stdout) == (2, b"") and ran.stderr.startswith(b"error: "), ran)
        count(f"{name}: nothing is made", not os.path.lexists("s"))


def shells():
    lines = b"".join(b"%s\n" % line for line in (b"createtable t", b"insert t r f q \\e v", b"scan t \\0", b"scan t a", b"scan u \\0", b"bogus"))
    with FileServer("shell") as server:
        ran = run("shell", "--socket", "shell", "--user", "root", stdin=lines)
        count("a shell is answered", ran.returncode == 0 and ran.stdout.split(b"\n")[:4] == [b"ok", b"ok", *ran.stdout.split(b"\n")[2:3], b"end"] and ran.stderr == b"", ran)
        server.kill()
    ran = run("shell", "--socket", "shell", "--user", "root", "--timeout", "1")
    count("a dead server", (ran.returncode, ran.stderr) == (1, b"fault: shell: no server is reached: Connection refused (os error 111)\n"), ran)
    ran = run("shell", "--socket", "nothing", "--user", "root", "--timeout", "1")
    count("no file", (ran.returncode, ran.stderr) == (1, b"fault: nothing: no server is reached: No such file or directory (os error 2)\n"), ran)
    with socket.socket(socket.AF_UNIX) as silent:
        silent.bind("silent")
        silent.listen()
        ran = run("shell", "--socket", "silent", "--user", "root", "--timeout", "1", stdin=b"scan t \\0\n")
        count("another's server", (ran.returncode, ran.stderr) == (1, b"fault: silent: it doesn't answer as tabd\n"), ran)


def clients():
    value = bytes(range(256)) * 4096
    with FileServer("clients", "--workers", "2"), tabd.connect("clients", "root") as root:
        root.create_table("t")
        root.write("t", "r", [tabd.Put("f", "q", value=value)])
        with tabd.connect("clients", "root") as other:
            count("the client in Python, with a million bytes there and back", [cell.value for cell in other.scan("t")] == [value])


if __name__ == "__main__":
    run_parts(rights, group, others, one_server_a_file, locked_folders, what_is_no_socket, names_too_long, the_end, command_lines, shells, clients)
