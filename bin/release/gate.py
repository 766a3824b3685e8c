"""The gate that comes before a release, and the archive of the library for C over what the gate proved."""
import os
import re
import subprocess

from checkout import ROOT, Stop, read, read_bytes, run, say

PASSED = re.compile(r"\d+ passed, 0 failed\b.*")
CRATE = "sefunjaro_c"
JOBS = "4"


def last_line(log):
    """The last line of a gate that passed."""
    line = (read_bytes(log).decode(errors="replace").strip().split("\n") or [""])[-1]
    if not PASSED.fullmatch(line):
        raise Stop(f"the gate didn't pass: {line}")
    return line


def gate(folder):
    """Runs the gate, and gives its last line."""
    log = os.path.join(folder, "gate")
    say("the gate runs: rt ci")
    with open(log, "wb") as file:
        status = subprocess.run(["rt", "ci"], cwd=ROOT, stdin=subprocess.DEVNULL, stdout=file).returncode
    line = last_line(log)
    if status != 0:
        raise Stop(f"the gate ended with status {status}")
    return line


def crates():
    """What each crate of crates.txt uses."""
    rows = [line.partition("#")[0].partition(":") for line in read("crates.txt").splitlines()]
    return {head.split()[0]: uses.split() for head, _, uses in rows if head.strip()}


def below(found, crate):
    """The crates of the repository that one stands on."""
    own = [name for name in found[crate] if name in found]
    return list(dict.fromkeys(name for one in own for name in [*below(found, one), one]))


def library(crate):
    """The folder of the library that the gate left of a crate."""
    return os.path.join(ROOT, "crates", crate, "out", "rlib")


def build_archive():
    """Proves the library for C over the libraries that the gate has just left in the checkout, and builds its archive, which the gate
    itself doesn't. `rt lib` would prove all of them once more, since it takes none that the gate left."""
    kit, found = os.path.dirname(run("rt", "doc").strip().split("\n")[-1]), crates()
    words = ["--crate-name", CRATE, "src/lib.rt", "--crate-type", "staticlib", "--links", f"{CRATE}=", "--jobs", JOBS]
    for name in ["std", *found[CRATE]]:
        words += ["--extern", f"{name}={library(name) if name in found else os.path.join(kit, 'rlibs')}/{name}.rlib"]
    for place in [os.path.join(kit, "rlibs"), *map(library, below(found, CRATE))]:
        words += ["-L", f"dependency={place}"]
    words += ["--antt-project", f"{kit}/rattle/logic/antt-project.json", "--logic-built", f"{kit}/logic_built"]
    words += ["--toolchain", f"{kit}/toolchain", "--backend", "llvm", "-o", f"out/lib{CRATE}.a"]
    say(f"{CRATE} is proved and built over what the gate proved")
    folder = os.path.join(ROOT, "crates", CRATE)
    os.makedirs(os.path.join(folder, "out"), exist_ok=True)
    how = {"stdin": subprocess.DEVNULL, "stdout": subprocess.PIPE, "stderr": subprocess.STDOUT, "encoding": "utf-8", "errors": "replace"}
    done = subprocess.run([os.path.join(kit, "bin", "rattle"), "build", *words], cwd=folder, **how)
    if done.returncode != 0 or not re.search(r"^logic=proved ", done.stdout, re.M):
        raise Stop(f"{CRATE} couldn't be built:\n{done.stdout[-3000:]}")
