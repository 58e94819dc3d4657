"""A program that is built without proofs: what `rt try` compiles, without its tests."""

import fcntl
import os
import re
import shutil
import subprocess
import sys
import threading
import time
from contextlib import contextmanager
from pathlib import Path
from tempfile import TemporaryDirectory

# The functions of the tests, each of which ends the program where a test fails; and the bytes that fill a place before it is written.
TEST = re.compile(rb'^(define internal void @"rattle-(?:try::site-\d+|llvm-checks::\w+)"\([^\n]*\{)\n.*?^\}$', re.MULTILINE | re.DOTALL)
FILL = re.compile(rb"^  call void @llvm\.memset\.p0\.i64\(ptr %r\d+, i8 -86, [^\n]*\n", re.MULTILINE)
# Takes what is to be compiled with tests, and the words for it; all else is compiled.
CLANG = """\
#!/bin/sh
case " $* " in
  *' -fsanitize=address '*)
    cp module.bc {room}/module.bc
    printf '%s\\n' "$@" >{room}/words
    exit 1
    ;;
esac
exec {clang} "$@"
"""
MINUTES = "three minutes or less on four processors that are free"
# How many seconds a build took there, and after how many of silence it is told that it goes on.
ELSEWHERE, EVERY = 125, 15


class NotBuilt(Exception):
    """Why there is no program."""


def ran(words, **how):
    """Runs a part of the toolchain, which has to do its work."""
    done = subprocess.run(words, capture_output=True, text=True, errors="replace", stdin=subprocess.DEVNULL, **how)
    if done.returncode:
        raise NotBuilt(f"{Path(words[0]).name} ended with {done.returncode}: {(done.stderr or done.stdout).strip()[-2000:]}")
    return done.stdout


def kit():
    """The folder of the toolchain."""
    if not shutil.which("rt"):
        raise NotBuilt("rt is not on the path; it is the toolchain's, as /opt/rattle/bin/rt")
    return Path(ran(["rt", "doc"]).split()[0]).parent


def lay(kit, room):
    """A folder that is as the toolchain's, but that its clang takes what is to be compiled to the room, and that nothing is checked."""
    made = room / "kit"
    for folder in (made / "bin", made / "toolchain/bin"):
        folder.mkdir(parents=True)
    for path in [*kit.iterdir(), *(kit / "toolchain").iterdir(), *(kit / "bin").iterdir(), *(kit / "toolchain/bin").iterdir()]:
        laid = made / path.relative_to(kit)
        if not laid.exists():
            laid.symlink_to(path)
    for name in ("bin/rt", "bin/rtlib.py"):
        (made / name).unlink()
        shutil.copy(kit / name, made / name)
    for name, text in (("bin/rattle", "#!/bin/sh\nexit 1\n"), ("toolchain/bin/clang", CLANG.format(room=room, clang=kit / "toolchain/bin/clang"))):
        (made / name).unlink()
        (made / name).write_text(text)
        (made / name).chmod(0o755)
    return made


def without_tests(text, kept=b""):
    """The text of what is compiled, without tests and what is there for them; functions are looked after as is kept, which is not at all."""
    text, tests = TEST.subn(rb"\1\n  ret void\n}", text)
    if not tests:
        raise NotBuilt("what rt try compiles has no tests of the form that this tool knows")
    text = FILL.sub(b"", text).replace(b" sanitize_address", kept)
    return text.replace(b'"frame-pointer"="all"', b'"frame-pointer"="none"')


def object_of(kit, room, level, *more, kept=b""):
    """Compiles what was taken, without its tests, at this level of speed and with more words; what is kept, `without_tests` says."""
    clang = kit / "toolchain/bin/clang"
    ran([clang, "-S", "-emit-llvm", "-O0", "-Xclang", "-disable-llvm-passes", "-x", "ir", room / "module.bc", "-o", room / "module.ll"])
    (room / "module.ll").write_bytes(without_tests((room / "module.ll").read_bytes(), kept))
    words = (room / "words").read_text().splitlines()
    others = {"-O0": level, "module.bc": room / "module.ll", "module.o": room / "module.o"}
    kept = [others.get(word, word) for word in words if word != "-fsanitize=address" and not word.startswith("--sysroot=")]
    ran([clang, *kept, *more])
    return room / "module.o"


def compiled(kit, room):
    """Compiles what was taken, as fast as what is proved, and links it."""
    module = object_of(kit, room, "-O3")
    links = [kit / "bin/rattle-link", "--target", "x86_64-unknown-linux-gnu", "--toolchain", kit / "toolchain", "-o", room / "program"]
    ran([*links, module, kit / "c/libos_c.a", kit / "c/liblibc_c.a"])
    return room / "program"


def take(kit, room, crate):
    """Takes what is compiled of a crate to the room, and the words for it."""
    made, quiet = lay(kit, room), {"stdin": subprocess.DEVNULL, "stdout": subprocess.DEVNULL, "stderr": subprocess.PIPE}
    tried = subprocess.Popen([made / "bin/rt", "try", "--", "--help"], cwd=crate, text=True, **quiet)
    try:
        _, told = tried.communicate()
    finally:
        # Where this tool is told to stop, rt is too, and stops what it has begun.
        tried.terminate()
        tried.wait()
    if not (room / "module.bc").is_file():
        raise NotBuilt(f"rt try compiled nothing: {told.strip()[-2000:]}")


@contextmanager
def going_on(say, what):
    """Says every few seconds that a step goes on, until it is over."""
    over = threading.Event()

    def tell():
        while not over.wait(EVERY):
            say(f"still {what}")

    teller = threading.Thread(target=tell, daemon=True)
    teller.start()
    try:
        yield
    finally:
        over.set()
        teller.join()


def build(crate, say):
    """Builds the program of a crate in a room of its own, and answers where it lies."""
    found = kit()
    with TemporaryDirectory(prefix="unproved-") as name:
        room = Path(name)
        say(f"building the program without proofs, the first time, in {MINUTES}")
        with going_on(say, "gathering what is to be compiled"):
            take(found, room, crate)
        say("compiling it")
        with going_on(say, "compiling it"):
            program = compiled(found, room)
        ran([program, "--help"])
        kept = crate / "out/unproved" / crate.name
        shutil.move(program, kept.with_suffix(".part"))
        os.replace(kept.with_suffix(".part"), kept)


@contextmanager
def alone(folder, say):
    """One build at a time: a second one waits, and finds what the first has made."""
    folder.mkdir(parents=True, exist_ok=True)
    with open(folder / ".lock", "w") as lock:
        with going_on(say, "waiting for a build that another command has begun"):
            fcntl.flock(lock, fcntl.LOCK_EX)
        yield


def built(root):
    """The path of the program where it is as its sources are, or None."""
    found = subprocess.run([root / "tools/built", "--unproved"], capture_output=True, text=True)
    return Path(found.stdout.strip()) if found.returncode == 0 else None


def unproved(root):
    """The path of the program, which is built where there is none of the sources as they are."""
    found = built(root)
    if found:
        return found
    crate = root / "crates" / ran([root / "tools/crates"]).split()[-1]
    folder, begun = crate / "out/unproved", time.monotonic()

    def say(text):
        seconds = f"{time.monotonic() - begun:.0f} s so far, {ELSEWHERE} s in all elsewhere"
        print(f"whview: {text} ({seconds})", file=sys.stderr, flush=True)

    with alone(folder, say):
        if not built(root):
            total = ran([root / "tools/built", "--unproved", "--sum"])
            (folder / "sources.sum").unlink(missing_ok=True)
            build(crate, say)
            (folder / "sources.sum").write_text(total)
            say("it is built")
    return folder / crate.name
