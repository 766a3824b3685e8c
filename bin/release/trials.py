"""What a release has to do where it is installed: each trial raises Stop where it doesn't."""
import glob
import os
import re
import shutil
import subprocess
import tarfile

import deb
import fronts
import markdown
import tree
from checkout import ROOT, Stop, major, programs, run, version
from manual import MACHINE, all_examples, installed
from tree import File, plain

PREFIX = "/opt/sefunjaro"
OLDER = "1.99.0-1"
# What stands in each package of the older version alone.
STALE = {"usr/share/doc/{name}/older": plain("older\n")}
TESTS = ["test_sefunjaro", "test_named"]
# The kind of wheel over ctypes, for any Python.
ANY = "py3"
IN_C = "import sefunjaro; print(sefunjaro.IS_IN_C)"
LIBRARY = f"libsefunjaro{major()}"
PROGRAMS = ["sefunjaro", LIBRARY, "python3-sefunjaro"]
FOR_C = [LIBRARY, "libsefunjaro-dev"]


class Release:
    """What bin/make_release left in a folder."""

    def __init__(self, folder):
        self.folder = folder
        self.archive, self.crate = self.one("*.tar.gz"), self.one("*.crate")

    def one(self, pattern):
        found = glob.glob(os.path.join(self.folder, pattern))
        if len(found) != 1:
            raise Stop(f"{self.folder} has {len(found)} files {pattern}, where there is one in a release")
        return found[0]

    def packages(self, names):
        return [self.one(f"{name}_*.deb") for name in names]

    def wheel(self, kind):
        """The wheel of a kind: ANY, or a version of Python, as cp311, with the module in C."""
        return self.one(f"*-{kind}-*.whl")

    def files(self):
        """The files of the archive, by their paths below its prefix."""
        found = {}
        with tarfile.open(self.archive) as archive:
            for entry in archive:
                path = entry.name.partition("/")[2]
                if entry.issym():
                    found[path] = tree.link(entry.linkname)
                elif entry.isfile():
                    found[path] = File(archive.extractfile(entry).read(), entry.mode)
        return found


def due(what, wanted, got):
    if wanted != got:
        raise Stop(f"{what}\n  due:\n{wanted}\n  got:\n{got}")


def requests():
    """The command of the requests with which README.md begins, where the programs are installed, and the lines that are due."""
    command, lines = next(found for found in markdown.of_page("README.md") if "bin/zone_answers" in found.command)
    command = re.sub(r"bin/zone_answers \S+$", "zone_answers zones.txt", command.replace("\\\n", ""))
    return command, "\n".join(lines) + "\n"


def answers(root):
    """The README's requests over the root's own source, and what it asks `zone`."""
    command, lines = requests()
    due("the requests of README.md", lines, root.ask(f"cd /tmp && zone plain {MACHINE} > zones.txt && {command}"))
    asked = [found for found in markdown.of_page("README.md") if "bin/zone " in found.command]
    for command, lines in asked:
        due(command, "\n".join(lines) + "\n", root.ask(installed(command)))
    if not asked or not re.fullmatch(r"\d{4}-\d\d-\d\d \d\d:\d\d:\d\d(\.\d+)? \+0[12]:00 CES?T\n", root.ask("zone at Europe/Paris now")):
        raise Stop("zone doesn't tell what time it is")


def page(root, name, section):
    """The manual's page of a name, with the parts that are due in its section."""
    told = re.sub(".\x08", "", root.ask(f"man -P cat {section} {name}", MANWIDTH="100"))
    for title in ("NAME", "DESCRIPTION", "SEE ALSO", *(() if section == 7 else ("SYNOPSIS", "EXAMPLES"))):
        if not re.search(rf"^{title}$", told, re.M):
            raise Stop(f"the page of {name} has no {title}:\n{told[:500]}")


def pages(root):
    """The examples of each program's page, run where the programs are installed, and the page itself."""
    for name, commands in all_examples().items():
        page(root, name, 1)
        root.ask("rm -rf /tmp/page && mkdir /tmp/page")
        for command, lines in commands:
            told = root.ask(f"cd /tmp/page && {command}")
            if not markdown.fits(lines, [line.rstrip() for line in told.splitlines()]):
                due(f"{name}: {command}", "\n".join(lines), told)


def words(root):
    """What the fronts, or the bare programs, say by themselves: the usage, the version and the meaning of a status."""
    for program in programs():
        name, is_bare = program.name, fronts.is_bare(program)
        begins = f"{name} [" if is_bare else f"usage: {name}"
        if not root.ask(f"{name} --help").startswith(begins) or version() not in root.ask(f"{name} --version"):
            raise Stop(f"{name} doesn't know --help or --version")
        told, status = root.run(name)
        due(f"{name} without a word", (True, 1), (told.startswith(f"{name}: " if is_bare else begins), status))
    due("a file that isn't there", ("zone_list: there is no file /none\n", 3), root.run("zone_list /none A 0 1"))
    due("a link to a front", root.ask("zone_list --version"), root.ask("ln -s $(command -v zone_list) /tmp/linked && /tmp/linked --version"))


def completed(root, prefix):
    """The names of zones that bash completes, over a file and over the system's own source, and a command."""
    for name, words, wanted in (("zone_list", "zones.txt Europe/Par", "Europe/Paris"), ("zone", "at Europe/Par", "Europe/Paris"), ("zone", "conv", "convert")):
        line = f"COMP_WORDS=({name} {words}) COMP_CWORD={len(words.split())}"
        told = root.ask(f"cd /tmp && . {prefix}/share/bash-completion/completions/{name} && {line} && _{name} && echo ${{COMPREPLY[*]}}")
        due(f"what bash completes of {name} {words}", f"{wanted}\n", told)


def installed_whole(root, prefix):
    answers(root)
    words(root)
    completed(root, prefix)
    pages(root)
    page(root, "sefunjaro", 7)


def left(root, before):
    """That nothing is left of what was installed."""
    root.clear()
    after = root.listing()
    if before != after:
        told = "\n".join([*(f"+ {path}" for path in sorted(after - before)), *(f"- {path}" for path in sorted(before - after))])
        raise Stop(f"what is removed leaves:\n{told[:3000]}")


def unpack(root, release):
    place = root.put(release.archive)
    root.ask(f"mkdir {PREFIX} && tar -xzf {place} -C {PREFIX} --strip-components=1")


def remove(root):
    root.ask(f"rm -r {PREFIX}")


def install(root, paths):
    root.ask(f"dpkg -i {root.put(*paths)}")


def purge(root, names):
    root.ask(f"dpkg -P {' '.join(reversed(names))}")


def compiled(root, flags, **settings):
    """The first caller in C, built in the root."""
    root.put(os.path.join(ROOT, "callers", "example.c"))
    root.ask(f"cd /tmp && gcc -std=c99 -Wall -Wextra -Wpedantic -Werror example.c -o example {flags}", **settings)
    due("the caller in C", requests()[1], root.ask(f"/tmp/example {MACHINE}"))


def named(root, **settings):
    """The calls for zones by name, compiled with the root's own file, by their test over the root's own source."""
    root.put(os.path.join(ROOT, "bindings", "c", "test_named.c"))
    file = "$(pkg-config --variable=pkgdatadir sefunjaro)/sefunjaro_named.c"
    root.ask(f"cd /tmp && gcc -Wall -Wextra -Werror test_named.c {file} -o test_named $(pkg-config --cflags sefunjaro) "
             "$(pkg-config --variable=libdir sefunjaro)/libsefunjaro.a", **settings)
    root.ask(f"mkdir -p /tmp/named && /tmp/test_named /tmp/named {MACHINE}")


def python_tests(root, python, is_in_c=False):
    """The tests of the module by an interpreter that has it, with what it has in C or without."""
    root.put(*(os.path.join(ROOT, "bindings", "python", f"{name}.py") for name in TESTS))
    due("whether the module is in C", f"{is_in_c}\n", root.ask(f"cd /tmp && {python} -Bc '{IN_C}'"))
    told = root.ask(f"cd /tmp && {python} -B -m unittest {' '.join(TESTS)} 2>&1")
    if not re.search(r"^OK\b", told, re.M):
        raise Stop(told[-2000:])


def kind_of(root):
    """The kind of the wheels for the root's own Python, as cp311."""
    return root.ask("python3 -c 'import sys; print(\"cp{}{}\".format(*sys.version_info))'").strip()


def wheel_here(release, python, folder):
    """The wheel with the module in C for the version that a command of this machine starts: the tests of the module in a fresh environment."""
    kind = python.replace("python", "cp").replace(".", "")
    place = os.path.join(folder, kind)
    inside = os.path.join(place, "bin", "python")
    run(python, "-m", "venv", place)
    run(inside, "-m", "pip", "install", "-q", "--no-index", "--disable-pip-version-check", release.wheel(kind))
    for name in TESTS:
        shutil.copy(os.path.join(ROOT, "bindings", "python", f"{name}.py"), place)
    due("whether the module is in C", "True\n", run(inside, "-Bc", IN_C, cwd=place))
    run(inside, "-B", "-m", "unittest", "-q", *TESTS, cwd=place, stderr=subprocess.DEVNULL)


def older(release, folder):
    """Packages of an older version, each with a file that the release doesn't have."""
    depends = run("dpkg-deb", "-f", *release.packages(["sefunjaro"]), "Depends")
    made = deb.packages(release.files(), re.search(r"libc6 \(>= ([\d.]+)\)", depends)[1], OLDER, STALE)
    for name, data in made.items():
        with open(os.path.join(folder, name), "wb") as file:
            file.write(data)
    return [os.path.join(folder, f"{name}_{OLDER}_amd64.deb") for name in PROGRAMS]


def upgraded(root, release, folder):
    """That packages installed over older ones leave what they leave in a fresh root."""
    before = root.listing()
    install(root, release.packages(PROGRAMS))
    fresh = root.listing()
    purge(root, PROGRAMS)
    install(root, older(release, folder))
    old = root.listing()
    install(root, release.packages(PROGRAMS))
    new = root.listing()
    if old == new or not any("/older " in path for path in old):
        raise Stop("the older packages differ in nothing")
    due("the packages over older ones", "", "\n".join(sorted(no_bytecode(new) ^ no_bytecode(fresh))))
    purge(root, PROGRAMS)
    left(root, before)


def lintian(release):
    """That lintian finds no error."""
    run("lintian", "--fail-on", "error", "--tag-display-limit", "0", "--allow-root", *release.packages([*PROGRAMS, "libsefunjaro-dev"]))


def no_bytecode(listing):
    """A listing without the times at which the system compiled modules."""
    return {path.split(" ")[0] if "__pycache__" in path else path for path in listing}


def unpacked(release, folder):
    """A prefix in a folder of this machine, with the archive below it."""
    prefix = os.path.join(folder, "prefix")
    os.mkdir(prefix)
    run("tar", "-xzf", release.archive, "-C", prefix, "--strip-components=1")
    return prefix


def completed_by_zsh(prefix, folder):
    """What zsh completes, over a file and over this machine's own source."""
    run("sh", "-c", f"{prefix}/bin/zone plain {MACHINE} > zones.txt", cwd=folder)
    for words, wanted in (("zone at Europe/Par", "Europe/Paris"), ("zone conv", "convert"), ("zone --rf", "--rfc3339"), ("zone pla", "plain"),
                          ("zone_list zones.txt Europe/Par", "Europe/Paris")):
        line = " ".join([*words.split()[:-1], wanted])
        due("what zsh completes", line, run("zsh", "-f", os.path.join(ROOT, "bin", "release", "complete.zsh"), prefix, folder, words).strip())


def crate(release, prefix, folder):
    """The first caller in Rust over the crate, which finds the library by pkg-config, and then by a path; and the layouts of what it passes."""
    run("tar", "-xzf", release.crate, "-C", folder)
    copy, library = os.path.join(folder, os.path.basename(release.crate).removesuffix(".crate")), f"{prefix}/lib"
    known = {key: word for key, word in os.environ.items() if key not in ("SEFUNJARO_FOLDER", "PKG_CONFIG_PATH")}
    known["CARGO_TARGET_DIR"] = f"{folder}/target"
    source = os.path.join(ROOT, "crates", "zone_answers_program", "data", "tz.txt")
    for more in ({"PKG_CONFIG_PATH": f"{library}/pkgconfig", "LD_LIBRARY_PATH": library}, {"SEFUNJARO_FOLDER": library}):
        settings = {**known, **more}
        told = run("cargo", "run", "-q", "--offline", "--example", "first", "--", source, cwd=copy, env=settings)
        due("the caller in Rust", requests()[1].replace(" | ", "\n"), told)
        run("cargo", "test", "-q", "--offline", "--lib", cwd=copy, env=settings)
