"""Links between servers that can be cut: what comes to a port goes on to another one, until the link is cut for a while."""

import socket
import threading
import time
from contextlib import suppress

PIECE = 2**16


class Link:
    """Takes connections on a port of its own and passes on what they say."""

    def __init__(self, to):
        self.to, self.open, self.cut_until, self.lock = to, [], 0.0, threading.Lock()
        self.listening = socket.create_server(("127.0.0.1", 0))
        self.port = self.listening.getsockname()[1]
        threading.Thread(target=self.take, daemon=True).start()

    def take(self):
        """Passes on what each connection says, both ways."""
        while True:
            try:
                here, _ = self.listening.accept()
            except OSError:
                return
            there = self.reached()
            if there is None:
                here.close()
                continue
            with self.lock:
                self.open += [here, there]
            for one, other in ((here, there), (there, here)):
                threading.Thread(target=self.passed_on, args=(one, other), daemon=True).start()

    def reached(self):
        """A connection to the other end, where the link is not cut and somebody listens there."""
        if time.monotonic() < self.cut_until:
            return None
        with suppress(OSError):
            return socket.create_connection(("127.0.0.1", self.to), 5)
        return None

    def passed_on(self, one, other):
        with suppress(OSError):
            while piece := one.recv(PIECE):
                other.sendall(piece)
        for each in (one, other):
            with suppress(OSError):
                each.shutdown(socket.SHUT_RDWR)
            each.close()
        with self.lock:
            self.open = [each for each in self.open if each not in (one, other)]

    def cut(self, seconds):
        """Breaks off what is said, and takes nothing more for so long."""
        self.cut_until = time.monotonic() + seconds
        with self.lock:
            broken, self.open = self.open, []
        for each in broken:
            with suppress(OSError):
                each.shutdown(socket.SHUT_RDWR)

    def close(self):
        self.listening.close()
        self.cut(0)
