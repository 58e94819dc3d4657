"""Bad words, files and servers by the command itself: each gets one line that says what and where, and changes nothing."""

import io
import os
import shutil
import ssl
import subprocess
import threading
from contextlib import contextmanager, redirect_stderr, redirect_stdout
from http.server import BaseHTTPRequestHandler, ThreadingHTTPServer
from http.client import HTTPConnection
from pathlib import Path
from tempfile import TemporaryDirectory

from upkeep.words import ROOT
from whview.catalogue.parts import line
from whview.cluster import keeping
from whview.cluster.command import main

from trials.cluster.scenarios import answering
from trials.cluster.small_warehouse import AT_ONCE, STRATEGY, TEXT, Small
from trials.servers.clickhouse import NAME, free_ports

# Names that ClickHouse has for itself, in one place or another.
TAKEN = """[[view]]
name = "system"
columns = ["_part", "_table:text", "n"]
[[view]]
name = "numbers"
columns = ["_part", "index:text"]
[[view]]
name = "merge"
over = ["system", "numbers"]
join = [["system._part", "numbers._part"]]
keep = [["_sample_factor", "system.n"], ["select", "numbers.index"], ["key", ["+", "system.n", 1]]]
[[view]]
name = "default"
over = ["merge"]
group = [["from", "merge.select"]]
count = "count"
sum = [["sum", "merge.key"]]
"""
TAKEN_STRATEGY = """comp merge from system numbers
inst system
inst numbers
comp default from merge
inst merge
inst default
"""
SHARP = ["tab\there", "two\nlines", "back\\slash\\", "zero\0byte", "\\N", "it's", '"quoted"', "\r", "", "ÿ", "\x01\x08\x0c", "`tick`", "--", "/*"]


def told_by(*words):
    """The status of a command, its lines of errors, and what it prints."""
    out, err = io.StringIO(newline=""), io.StringIO(newline="")
    with redirect_stdout(out), redirect_stderr(err):
        try:
            status = main([str(word) for word in words])
        except SystemExit as ended:
            status = ended.code
    return status, err.getvalue(), out.getvalue()


class Folder:
    """A folder of the small warehouse, or of other views, and the command over it."""

    def __init__(self, path, servers, database):
        self.path, self.servers, self.database = Path(path), [str(server) for server in servers], database
        (self.path / "data").mkdir()
        (self.path / "changes").mkdir()
        self.write("catalogue.toml", TEXT)
        names = [each.partition('"')[0] for each in TEXT.split('name = "')[1:]]
        listed = [f"inst {names[v]}" if of is None else f"comp {names[v]} from {' '.join(names[u] for u in of)}" for v, of in STRATEGY]
        self.write("strategy.txt", "\n".join(listed) + "\n")

    def write(self, name, text):
        (self.path / name).write_bytes(text if isinstance(text, bytes) else text.encode())

    def words(self, *command, servers=None, more=()):
        given = [word for server in servers or self.servers for word in ("--server", server)]
        return [command[0], self.path, *command[1:], *given, "--database", self.database, "--cluster", NAME, *more]

    def told(self, *command, **more):
        return told_by(*self.words(*command, **more))


def one_line(found, status, *words):
    """What is otherwise where a command has to end with this status and one line that says these words."""
    had, err, out = found
    right = had == status and err.count("\n") == 1 and all(word in err for word in words) and not out
    return [] if right else [f"status {had}, {err!r}, {out[:200]!r}; and meant are {status} and one line with {words}"]


def of_files(folder):
    """Faults of files of data and changes, each with its place."""
    wrong = []
    faults = [
        ("changes/a.csv", "#,x,k\n1,2,3\n", "changes/a.csv:1:1", "a has the header #,k,x"),
        ("changes/a.csv", "k,x\n1,2\n", "changes/a.csv:1:1", "the header"),
        ("changes/a.csv", "#,k,x\n1,2\n", "changes/a.csv:2:1", "2 cells"),
        ("changes/a.csv", "#,k,x\n1,2,9223372036854775808\n", "changes/a.csv:2:5", "64 bits"),
        ("changes/a.csv", "#,k,x\n0,2,3\n", "changes/a.csv:2:1", "not zero"),
        ("changes/b.csv", b"#,k,t\n1,2,a\xffb\n", "changes/b.csv:2:6", "UTF-8"),
        ("changes/j.csv", "#,t\n", "changes/j.csv:1:1", "j is derived"),
        ("changes/c.csv", "#,k,x\n", "changes/c.csv:1:1", "there is no view c"),
        ("changes/a.CSV", "#,k,x\n1,2,3\n", "changes/a.CSV:1:1", "this is not read"),
        ("changes/b.csv.new", "#,k,t\n", "changes/b.csv.new:1:1", "this is not read"),
    ]
    for name, text, *words in faults:
        folder.write(name, text)
        wrong += one_line(folder.told("night"), 3, *words)
        (folder.path / name).unlink()
    return wrong


def of_words(folder, small):
    """Faults of words, and words that are others than those the warehouse was made by."""
    servers = folder.servers
    cases = [
        (folder.told("create"), 1, "already"),
        (folder.told("load"), 1, "has its base tables already"),
        (folder.told("open"), 1, "has its views already"),
        (folder.told("read", "j", "--version", 99), 1, "version 99 is none"),
        (folder.told("read", "k"), 2, "there is no view 'k'"),
        (folder.told("read"), 2, "read takes a view"),
        (folder.told("night", "j"), 2, "night takes no"),
        (folder.told("sweep"), 2, "--keep TIME"),
        (folder.told("sweep", "--keep", "soon"), 2, "--keep TIME"),
        (folder.told("night", more=["--shard", "a:x"]), 2, "was made by --shard a:k b:t, and not a:x"),
        (folder.told("night", more=["--shard", "a:y"]), 2, "a has no column 'y'"),
        (folder.told("night", more=["--shard", "j:t"]), 2, "j is no base view"),
        (folder.told("night", servers=servers[:1]), 2, "was made by servers"),
        (folder.told("night", servers=servers[::-1]), 2, "was made by servers"),
        (folder.told("night", servers=["nowhere"]), 2, "--server is HOST:PORT"),
        (folder.told("night", more=["--database", "another"]), 1, "there is no warehouse in another"),
        (folder.told("night", more=["--cluster", "another"]), 2, "was made by --cluster"),
        (folder.told("give-up"), 1, "nothing to give up"),
        (folder.told("night", servers=[f"127.0.0.1:{free_ports(1)[0]}"]), 4, "no whole answer came"),
    ]
    wrong = [each for found, *meant in cases for each in one_line(found, *meant)]
    text = (folder.path / "catalogue.toml").read_text()
    folder.write("catalogue.toml", text.replace("13", "14"))
    wrong += one_line(folder.told("night"), 2, "was made by another catalogue")
    folder.write("catalogue.toml", text)
    with answering(200, b'{"data": [["1"') as server:
        wrong += one_line(folder.told("night", servers=[server]), 4, "not whole")
    with answering(500, b"Code: 9999, e.displayText() = DB::Exception: odd, e.what() = x") as server:
        wrong += one_line(folder.told("night", servers=[server]), 4, "code 9999")
    wrong += small.differs(None, "after bad words")
    keeping.fold(small.warehouse)
    keeping.Sweep(small.warehouse, AT_ONCE).run()
    return wrong + one_line(folder.told("read", "j", "--version", 2), 1, "version 2 is gone: it was swept")


def of_passwords(folder):
    """A password is in a file that nobody else may read, and is never a word."""
    wrong, file = [], folder.path / "password"
    for text, mode, status, word in (
        ("se'cret \\ word\n", 0o644, 3, "others may read"), ("two\nlines\n", 0o600, 3, "one line"), ("wrong\n", 0o600, 4, "assword"),
        (b"\xff\n", 0o600, 3, "UTF-8"),
    ):  # fmt: skip
        folder.write("password", text)
        os.chmod(file, mode)
        wrong += one_line(folder.told("versions", more=["--user", "clerk", "--password-file", file]), status, word)
    folder.write("password", "se'cret \\ word\n")
    status, err, _ = folder.told("versions", more=["--user", "clerk", "--password-file", file])
    wrong += [] if (status, err) == (0, "") else [f"a right password: {status}, {err}"]
    file.unlink()
    return wrong + one_line(folder.told("versions", more=["--user", "clerk", "--password-file", file]), 3, str(file))


# ---- https


class Passing(BaseHTTPRequestHandler):
    """Passes what comes on to a server."""

    def do_POST(self):
        content = self.rfile.read(int(self.headers["Content-Length"]))
        behind = HTTPConnection(*self.server.behind, timeout=60)
        behind.request("POST", self.path, content, {name: self.headers[name] for name in ("X-ClickHouse-User", "X-ClickHouse-Key")})
        answer = behind.getresponse()
        content = answer.read()
        self.send_response(answer.status)
        self.send_header("Content-Length", str(len(content)))
        self.end_headers()
        self.wfile.write(content)

    def log_message(self, *_):
        pass


@contextmanager
def over_https(address, folder):
    """A server's address over https, and the certificate by which it is known; None where there is no openssl."""
    if not shutil.which("openssl"):
        yield None
        return
    key, known = Path(folder) / "key.pem", Path(folder) / "known.pem"
    words = ["openssl", "req", "-x509", "-newkey", "rsa:2048", "-nodes", "-keyout", key, "-out", known, "-days", "2", "-subj", "/CN=localhost",
             "-addext", "subjectAltName=DNS:localhost"]  # fmt: skip
    subprocess.run(words, check=True, stdout=subprocess.DEVNULL, stderr=subprocess.DEVNULL)
    proxy = ThreadingHTTPServer(("127.0.0.1", 0), Passing)
    host, _, port = address.rpartition(":")
    proxy.behind, proxy.daemon_threads = (host, int(port)), True
    context = ssl.SSLContext(ssl.PROTOCOL_TLS_SERVER)
    context.load_cert_chain(known, key)
    proxy.socket = context.wrap_socket(proxy.socket, server_side=True)
    thread = threading.Thread(target=proxy.serve_forever)
    thread.start()
    try:
        yield f"localhost:{proxy.server_address[1]}", known
    finally:
        proxy.shutdown()
        proxy.server_close()
        thread.join()


def of_https(servers, folder):
    """Over https a server is one whose certificate is known, or none."""
    with TemporaryDirectory() as path, over_https(str(servers[0]), path) as found:
        if not found:
            return []
        address, known = found
        (Path(path) / "made").mkdir()
        made = Folder(Path(path) / "made", [address], "behind_https")
        wrong = one_line(made.told("create", more=["--https"]), 4, "no whole answer came")
        status, err, _ = made.told("create", more=["--https", "--ca", known])
        return wrong + ([] if status == 0 else [f"create over https: {status}, {err}"])


# ---- names and texts


def of_names(servers):
    """Names that the engine has for itself, and texts that would end a line or a literal, go in and come out as they are."""
    with TemporaryDirectory() as path:
        folder = Folder(path, servers, "its own names")
        folder.write("catalogue.toml", TAKEN)
        folder.write("strategy.txt", TAKEN_STRATEGY)
        folder.write("data/system.csv", "_part,_table,n\n1,x,5\n")
        folder.write("data/numbers.csv", "_part,index\n1,\n")
        folder.write("changes/numbers.csv", line(["#", "_part", "index"]) + "".join(line([1, 1, text]) for text in SHARP))
        shards = ["--shard", "system:_part"]
        wrong = [told for command in ("create", "load", "open", "night") for told in done(folder.told(command, more=shards), command)]
        _, _, out = folder.told("read", "default", more=shards)
        meant = line(["#", "from", "count", "sum"])
        meant += "".join(line([1, text, 1 + (text == ""), 6 + 6 * (text == "")]) for text in sorted(SHARP, key=str.encode))
        return wrong + ([] if out == meant else [f"texts come out as {out!r}, and went in as {meant!r}"])


def done(found, command):
    status, err, _ = found
    return [] if (status, err) == (0, "") else [f"{command}: status {status}, {err}"]


def a_cut_off_create(servers):
    """A database that has tables and is no warehouse is left alone."""
    with TemporaryDirectory() as path:
        folder = Folder(path, servers, "cut_off")
        wrong = one_line(folder.told("create", more=["--cluster", "nobody"]), 1, "knows 0 servers as nobody") if len(servers) > 1 else []
        servers[0].carried("CREATE DATABASE cut_off")
        servers[0].carried("CREATE TABLE cut_off.a (x Int64) ENGINE = Log")
        return wrong + one_line(folder.told("create"), 1, "has 1 tables, and is no warehouse")


def of_explained(path):
    """What whview sql writes for this engine, and which words it takes."""

    def said(*words):
        return subprocess.run([ROOT / "whview", "sql", *words, "--engine", "clickhouse", path], capture_output=True, text=True)

    wrong, text = [], said("create", "--open").stdout + said("night").stdout
    wrong += [] if "-- each:\n" in text and "-- one:\n" in text and text.count("INSERT INTO") > 6 else [f"whview sql: {text[:300]}"]
    refused = said("night", "--plain", "a")
    wrong += [] if refused.returncode == 1 and refused.stderr.count("\n") == 1 else [f"whview sql night --plain: {refused}"]
    return wrong


def mistakes(servers):
    """All of these, over a warehouse with nights."""
    small = Small(servers, ["a:k", "b:t"])
    small.night({(1, 6): 1})
    with TemporaryDirectory() as path:
        folder = Folder(path, servers, small.database)
        wrong = of_files(folder) + of_words(folder, small) + of_passwords(folder) + of_explained(folder.path)
    return wrong + of_https(servers, folder) + of_names(servers) + a_cut_off_create(servers)
