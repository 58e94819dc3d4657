"""Nights that begin at once: a process has a tool's modules loaded, and forks for each of its commands.

Run by itself with the path of a tool, it reads lines: of a command's words, and where to write what it says, which it answers with the
number of the process; and of such a number, which it answers with whether that stands still, or with its status when it has ended.
"""

import json
import os
import signal
import sys
from importlib import import_module
from pathlib import Path

LONGEST = 900


def begun(asked):
    """Becomes a command, stopped where that is asked for, so that somebody can follow it from its beginning."""
    os.setpgid(0, 0)
    # Where a shell has this run in the background, SIGINT would be passed over.
    for number in (signal.SIGINT, signal.SIGTERM, signal.SIGHUP):
        signal.signal(number, signal.SIG_DFL)
    for handle, name, ways in ((0, os.devnull, os.O_RDONLY), (1, asked["printed"], os.O_WRONLY), (2, asked["told"], os.O_WRONLY)):
        os.dup2(os.open(name, ways | os.O_CREAT, 0o600), handle)
    os.closerange(3, 16)
    if asked["user"] is not None:
        os.setgroups([])
        os.setresgid(*[asked["user"]] * 3)
        os.setresuid(*[asked["user"]] * 3)
    if asked["stopped"]:
        os.kill(os.getpid(), signal.SIGSTOP)
    return asked["words"]


class Children:
    """The commands that were begun, and how those ended that have."""

    def __init__(self):
        self.ended = {}

    def is_held(self, pid):
        """Whether one stands still, after waiting for that or its end."""
        _, status = os.waitpid(pid, os.WUNTRACED)
        if os.WIFSTOPPED(status):
            return True
        self.ended[pid] = status
        return False

    def status(self, pid):
        """The status of one that has ended, below 0 where a signal ended it."""
        status = self.ended.pop(pid) if pid in self.ended else os.waitpid(pid, 0)[1]
        return os.waitstatus_to_exitcode(status)


def serve():
    """Forks for each command that is asked for. Answers in the process of a command alone."""
    children = Children()
    for line in iter(sys.stdin.readline, ""):
        asked = json.loads(line)
        signal.alarm(LONGEST)
        if "words" not in asked:
            answer = int(children.is_held(asked["held"]) if "held" in asked else children.status(asked["ended"]))
        else:
            answer = os.fork()
            if answer == 0:
                return begun(asked)
        signal.alarm(0)
        os.write(1, f"{answer}\n".encode())
    os._exit(0)


def main():
    script = Path(sys.argv[1])
    package = script.parents[1]
    sys.path.insert(0, str(package))
    for part in (".", "catalogue", "strategy", "folder", "folder/report"):
        for file in sorted((package / "whview" / part).glob("*.py")):
            import_module(".".join(file.relative_to(package).with_suffix("").parts).removesuffix(".__init__"))
    code = compile(script.read_text(), script, "exec")
    sys.argv = [str(script), "folder", *serve()]
    exec(code, {"__name__": "__main__", "__file__": str(script)})


if __name__ == "__main__":
    sys.dont_write_bytecode = True
    main()
