"""What tests/idle.sh tests. Its last line counts what passed and failed."""

import socket
import struct
import time

from serving import HELLO, MAKE, OK, Server, count, field, frame, read_exactly, read_frame, run, run_parts

OPEN = frame(b"\x0b" + field(b"t") + b"\0\0" + bytes(8))
MANY = frame(b"\x0d" + bytes(4) + struct.pack(">I", 1) + b"\0\0")
STATUS = frame(b"\x13" + field(b"t"))


def write(row, value=b"v"):
    return frame(b"\x0a" + field(b"t") + field(row) + struct.pack(">I", 1) + b"\1" + field(b"f") + field(b"q") + field(b"") + b"\0" + field(value))


def closed_after(stream, began):
    """After how many seconds the server ends the connection, or None where it goes on."""
    try:
        while stream.recv(1 << 16):
            pass
    except socket.timeout:
        return None
    except ConnectionError:
        pass
    return time.monotonic() - began


def idle_peers_end():
    """Each kind of peer that stops holds all workers for a while; then an honest client is served."""
    with Server("--idle", "2", "--workers", "2") as server:
        with server.connect() as stream:
            stream.sendall(HELLO + MAKE + write(b"first", bytes(500_000)))
            count("the table is there", read_exactly(stream, 15) == 3 * OK)
        kinds = {"says nothing": b"", "stops inside the first head": HELLO[:2], "stops behind Hello": HELLO, "stops inside a frame": HELLO + write(b"whole") + write(b"cut")[:-1]}
        for name, sent in kinds.items():
            began = time.monotonic()
            peers = [server.connect() for _ in range(2)]
            for peer in peers:
                peer.sendall(sent)
            with server.connect() as honest:
                honest.sendall(HELLO)
                count(f"{name}: others are served", read_frame(honest) == OK)
                waited = time.monotonic() - began
            count(f"{name}: once its time is over", waited > 1.5, waited)
            took = [closed_after(peer, began) for peer in peers]
            count(f"{name}: it is closed", None not in took, took)
            for peer in peers:
                peer.close()
        began = time.monotonic()
        peers = [server.connect() for _ in range(2)]
        for peer in peers:
            peer.setsockopt(socket.SOL_SOCKET, socket.SO_RCVBUF, 4096)
            peer.sendall(HELLO + OPEN + 100 * MANY)
        with server.connect() as honest:
            honest.sendall(HELLO)
            count("never reads: others are served", read_frame(honest) == OK)
            count("never reads: once its time is over", time.monotonic() - began > 1.5, time.monotonic() - began)
        for peer in peers:
            peer.close()
        ran = server.shell(b"scan t \\0 [cut [cut\nscan t \\0 [whole [whole\n")
        count("what came whole was done, what was cut wasn't", ran.stdout.split(b"\n")[0] == b"end" and ran.stdout.count(b"whole f q") == 1, ran.stdout[:200])
        count("and nothing is said of it", server.process.poll() is None)


def those_who_speak_stay():
    # (as far below the limit as a loaded machine may stand still)
    with Server("--idle", "3", "--workers", "1") as server, server.connect() as stream:
        stream.sendall(HELLO + MAKE)
        good = read_exactly(stream, 10) == 2 * OK
        for _ in range(4):
            time.sleep(0.9)
            stream.sendall(STATUS)
            good = good and read_frame(stream)[4:5] == b"\x87"
        count("a request now and then", good)
        for byte in STATUS:
            stream.sendall(bytes([byte]))
            time.sleep(0.4)
        count("a byte now and then", read_frame(stream)[4:5] == b"\x87")


def without_a_limit():
    for words in (["--idle", "0"], []):
        with Server(*words, "--workers", "1") as server, server.connect() as stream:
            stream.sendall(HELLO[:5])
            time.sleep(2.5)
            stream.sendall(HELLO[5:])
            count(f"{words or 'default'}: it waits", read_frame(stream) == OK)
    count("no number of seconds", run("serve", "--port", "1", "--idle", "soon").returncode == 2)


if __name__ == "__main__":
    run_parts(idle_peers_end, those_who_speak_stay, without_a_limit)
