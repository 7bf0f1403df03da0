"""A server that tells a client what a transcript was told, as long as it is asked for the same frames."""
import threading

from reference import CLOSE, HELLO, Ended, listener_at, read_frame, user_of

OUT_OF_TURN = bytes.fromhex("00000003811006")


def refuse_all(stream):
    """Tells each request that it is out of turn, so that the client's next connection is of the next transcript."""
    while True:
        stream.sendall(OUT_OF_TURN)
        read_frame(stream)


class Replay:
    """Such a server at a socket file, for transcripts one after the other: a user's second connection is of the next one."""

    def __init__(self, file, transcripts):
        self.file, self.wrong = file, []
        self.left = [(it.title, dict(it.exchanges)) for it in reversed(transcripts) if not it.is_silent]
        self.title, self.exchanges = self.left.pop() if self.left else ("none", {})
        self.lock, self.threads = threading.Lock(), []

    def __enter__(self):
        self.listener = listener_at(self.file)
        self.accepting = threading.Thread(target=self.accept, daemon=True)
        self.accepting.start()
        return self

    def __exit__(self, *_):
        self.listener.shutdown(2)
        self.listener.close()
        self.accepting.join()
        for thread in self.threads:
            thread.join(10)

    def accept(self):
        while True:
            try:
                stream, _ = self.listener.accept()
            except OSError:
                return
            self.threads = [it for it in self.threads if it.is_alive()]
            thread = threading.Thread(target=self.serve, args=(stream,), daemon=True)
            self.threads.append(thread)
            thread.start()

    def taken(self, user):
        """The title and the exchanges of the connection that this user makes now."""
        with self.lock:
            while user not in self.exchanges and self.left:
                self.skip()
                self.title, self.exchanges = self.left.pop()
            return self.title, self.exchanges.pop(user, [])

    def skip(self):
        for user in self.exchanges:
            self.wrong.append((self.title, f"{user} never asks"))

    def finish(self):
        """What went wrong, once the client is done: a title and why."""
        self.skip()
        self.wrong += [(title, "it isn't asked") for title, _ in self.left]
        return self.wrong

    def serve(self, stream):
        with stream:
            title, exchanges, at = "a first frame", [], 0
            try:
                frame = read_frame(stream)
                if frame[4] != HELLO:
                    self.wrong.append((title, f"no Hello: {frame[:40].hex()}"))
                    return
                title, exchanges = self.taken(user_of(frame))
                while True:
                    wanted, told = exchanges[at] if at < len(exchanges) else (b"", b"")
                    if frame != wanted:
                        self.wrong.append((title, f"request {at} is {frame[:200].hex()}, and not {wanted[:200].hex() or 'there'}"))
                        return refuse_all(stream)
                    at += 1
                    stream.sendall(told)
                    frame = read_frame(stream)
            except Ended as end:
                if self.wrong and self.wrong[-1][0] == title:
                    return
                # a client may leave closes to the end of the connection
                if end.args[0] or any(asked[4] != CLOSE for asked, _ in exchanges[at:]):
                    self.wrong.append((title, f"it ends behind {at} of {len(exchanges)} requests and {end.args[0].hex()}"))
            except OSError as error:
                self.wrong.append((title, repr(error)))
