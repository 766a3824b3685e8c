"""The checkout that a release is made of: its version, its commit, its programs, and what else the makers of a release share."""
import hashlib
import os
import re
import subprocess
import sys
from collections import namedtuple

ROOT = os.path.dirname(os.path.dirname(os.path.dirname(os.path.realpath(__file__))))
ARCHITECTURE = "x86_64-linux"
# What the compiler of the kit makes programs for.
PROCESSOR = "x86-64-v2"

# A program: its name, the lines of its script in bin/, what these set, and the path of what is built.
Program = namedtuple("Program", "name lines settings path")
SETTING = re.compile(r'^(\w+)=(?:"((?:[^"\\]|\\.)*)"|(\S*))$', re.M)
# The line by which a script in bin/ starts a program.
STARTS = re.compile(r"^\. .*/zone_program\b", re.M)


class Stop(Exception):
    """Why no release can be made."""


def read(*parts):
    with open(os.path.join(ROOT, *parts), encoding="utf-8") as file:
        return file.read()


def read_bytes(path):
    with open(path, "rb") as file:
        return file.read()


def run(*command, **more):
    """Runs a command, and gives its standard output as a text."""
    done = subprocess.run(command, stdout=subprocess.PIPE, encoding="utf-8", errors="replace", **more)
    if done.returncode != 0:
        raise Stop(f"{' '.join(map(os.fspath, command))}: status {done.returncode}")
    return done.stdout


def git(*words):
    return run("git", "-C", ROOT, *words).strip()


def version():
    return read("VERSION").strip()


def major():
    return version().partition(".")[0]


def commit():
    return git("rev-parse", "HEAD")


def epoch():
    """When the commit was made, in seconds: the one time that stands in a release."""
    return int(git("log", "-1", "--format=%ct"))


def maintainer():
    return git("log", "-1", "--format=%cn <%ce>")


def built(name):
    """The file of the program NAME. Where several have one file, that looks at the name which it is called by, a release has it once."""
    return os.path.join(ROOT, "crates", f"{name}_program", "out", f"{name}_program")


def programs():
    """Every program that has a script in bin/, by name."""
    found = []
    for name in sorted(os.listdir(os.path.join(ROOT, "bin"))):
        lines = read("bin", name) if os.path.isfile(os.path.join(ROOT, "bin", name)) else ""
        if STARTS.search(lines):
            found.append(Program(name, lines, {key: one or other for key, one, other in SETTING.findall(lines)}, built(name)))
    return found


def glibc(*paths):
    """The highest version of the GNU C library that these files ask for, as (2, 34)."""
    told = "".join(run("objdump", "-T", path) for path in paths)
    return max((tuple(map(int, one.split("."))) for one in re.findall(r"GLIBC_([\d.]+)", told)), default=(2, 0))[:2]


def sum_of(data):
    return hashlib.sha256(data).hexdigest()


def say(text):
    print(f"{os.path.basename(sys.argv[0])}: {text}", file=sys.stderr, flush=True)
