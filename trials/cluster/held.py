"""SELECTs that are kept in their midst until they are let go, however slow a machine is: each asks a server of the trial's own for a value, and is
given none before. So what waits for a SELECT is told by the order in which things end, and not by seconds."""

import threading
import time
from http.server import BaseHTTPRequestHandler, ThreadingHTTPServer

from whview.cluster.servers import Server

# So long it is waited for SELECTs that begin, and for what is done beside them: what is not done by then is taken to wait for them.
PATIENCE = 300


class Keeper(BaseHTTPRequestHandler):
    """Answers when the SELECTs are let go."""

    def do_GET(self):
        self.server.seen.add(self.path)
        self.server.gate.wait()
        self.send_response(200)
        self.send_header("Content-Length", "2")
        self.end_headers()
        self.wfile.write(b"1\n")

    def log_message(self, *_):
        pass


class Held:
    """SELECTs on a server that are kept while this lasts, each with what it answers in the end."""

    def __init__(self, server, selects):
        """Each of `selects` has `{held}` where a test of its rows stands."""
        self.server, self.selects = server, selects
        self.answers = [None] * len(selects)

    def __enter__(self):
        self.keeper = ThreadingHTTPServer(("127.0.0.1", 0), Keeper)
        self.keeper.daemon_threads, self.keeper.seen, self.keeper.gate = True, set(), threading.Event()
        threading.Thread(target=self.keeper.serve_forever, daemon=True).start()
        self.threads = [threading.Thread(target=self.ask, args=(place,)) for place in range(len(self.selects))]
        for each in self.threads:
            each.start()
        end = time.monotonic() + PATIENCE
        while len(self.keeper.seen) < len(self.selects) and all(each.is_alive() for each in self.threads) and time.monotonic() < end:
            time.sleep(0.02)
        return self

    def ask(self, place):
        """One of them, by a client of its own. What it answers, or is told, is noted."""
        port = self.keeper.server_address[1]
        held = f"toUInt8(1) IN (SELECT x FROM url('http://127.0.0.1:{port}/{place}', 'TSV', 'x UInt8'))"
        try:
            self.answers[place] = Server(self.server.address).asked(self.selects[place].replace("{held}", held))
        except Exception as told:
            self.answers[place] = told

    def are_kept(self):
        """Whether all of them have begun, and none has ended."""
        return len(self.keeper.seen) == len(self.selects) and all(each.is_alive() for each in self.threads)

    def let_go(self):
        """Lets them end, and answers what they answer."""
        self.keeper.gate.set()
        for each in self.threads:
            each.join()
        return self.answers

    def __exit__(self, *_):
        self.let_go()
        self.keeper.shutdown()
        self.keeper.server_close()


class Beside(threading.Thread):
    """Something that is done beside such SELECTs: whether it was done before they were let go, and how long it took."""

    def __init__(self, do):
        super().__init__()
        self.do, self.failed, self.seconds = do, None, 0
        self.start()
        self.join(PATIENCE)
        self.is_done = not self.is_alive()

    def run(self):
        began = time.monotonic()
        try:
            self.do()
        except Exception as failed:
            self.failed = failed
        self.seconds = time.monotonic() - began


def beside(server, selects, what, do):
    """What is wrong with something that is done beside SELECTs which are kept, how long it took, and what they answered."""
    with Held(server, selects) as held:
        done = Beside(do)
        wrong = [] if held.are_kept() else [f"{what}: a SELECT beside it ended before it was let go: {held.answers}"]
        wrong += [] if done.is_done else [f"{what} waits for a SELECT"]
        answers = held.let_go()
        done.join()
    if done.failed:
        raise done.failed
    return wrong, done.seconds, answers
