"""Packages of the system that a tool needs, installed where they are missing and that can be done."""

import os
import shutil
import subprocess
import sys
from contextlib import suppress
from importlib.util import find_spec

# How long the package manager is waited for, which may wait for another one.
SECONDS = 600
# The interpreter that has the distribution's packages of Python.
DISTRIBUTION = "/usr/bin/python3"


def install(package, is_there):
    """Installs a package until it is there; where the list of packages is old, that is renewed."""
    quiet = {**os.environ, "DEBIAN_FRONTEND": "noninteractive"}
    for words in (["install", "-y", package], ["update"], ["install", "-y", package]):
        if is_there():
            break
        if shutil.which("apt-get"):
            with suppress(subprocess.TimeoutExpired):
                # Another trial may be installing something beside this one.
                subprocess.run(["apt-get", "-o", f"DPkg::Lock::Timeout={SECONDS}", *words], env=quiet, stdout=subprocess.DEVNULL, stderr=subprocess.DEVNULL, timeout=SECONDS)


def has(name):
    """Whether the distribution's interpreter has a package of Python."""
    with suppress(OSError):
        return not subprocess.run([DISTRIBUTION, "-c", f"import {name}"], stderr=subprocess.DEVNULL).returncode
    return False


def go_on_with(names, who):
    """Goes on by the interpreter that has these packages of Python, which are installed where they are missing; ends where that cannot be."""
    if all(map(find_spec, names)):
        return
    for name in names:
        install(f"python3-{name}", lambda name=name: has(name))
    if missing := [f"python3-{name}" for name in names if not has(name)]:
        sys.exit(f"{who} wants packages that are not there and cannot be installed: apt-get install -y {' '.join(missing)}")
    os.execv(DISTRIBUTION, [DISTRIBUTION, *sys.argv])
