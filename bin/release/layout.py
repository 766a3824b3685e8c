"""The files of a release below a prefix."""
import os

import completions
import fronts
import manual
import tree
from checkout import ARCHITECTURE, Stop, commit, glibc, major, programs, read, read_bytes, run, sum_of, version
from tree import link, plain

# Where C files stand that are compiled with a program.
DATA = "share/sefunjaro"
PKG_CONFIG = """prefix={prefix}
libdir={libdir}
includedir=${{prefix}}/include
pkgdatadir=${{prefix}}/{DATA}

Name: sefunjaro
Description: a verified time-zone engine
Version: {version}
Cflags: -I${{includedir}}
Libs: -L${{libdir}} -lsefunjaro
"""
# What of the repository stands in share/doc/sefunjaro, where the pages for users lead.
PAGES = ["PROGRAMS.md", "DIFFERENCES.md", "DECISIONS.md", "GLOSSARY.md", "VERSIONS.md"]
DOCUMENTS = ["NOTICES", "LICENSE-MIT", "LICENSE-APACHE", "CHANGELOG.md", *(f"docs/{name}" for name in PAGES)]
DOC = "share/doc/sefunjaro"
# Beside the files of a release: what was proved, and the checksum of each.
SUMS = "SHA256SUMS"


def name():
    return f"sefunjaro-{version()}-{ARCHITECTURE}"


def shared_object():
    return f"libsefunjaro.so.{major()}"


def pkg_config(prefix, libdir):
    return PKG_CONFIG.format(prefix=prefix, libdir=libdir, version=version(), DATA=DATA)


def of_programs():
    """The programs as they are, and their fronts; one that has a file with another is a link to that."""
    found, first = {"libexec/sefunjaro/front": plain(fronts.shared())}, {}
    for program in programs():
        if not os.path.exists(program.path):
            raise Stop(f"there is no {program.path}")
        name = first.setdefault(os.path.realpath(program.path), program.name)
        file = plain(read_bytes(program.path), 0o755) if name == program.name else link(name)
        found[f"libexec/sefunjaro/{program.name}"] = file
        found[f"bin/{program.name}"] = plain(fronts.front(program), 0o755)
    return found


def of_library(library):
    """The library that bin/make_library left in a folder, and what stands beside it for zones by name."""
    return {
        "include/sefunjaro.h": plain(read("include", "sefunjaro.h")),
        "include/sefunjaro_named.h": plain(read("bindings", "c", "sefunjaro_named.h")),
        f"{DATA}/sefunjaro_named.c": plain(read("bindings", "c", "sefunjaro_named.c")),
        "lib/libsefunjaro.a": plain(read_bytes(os.path.join(library, "libsefunjaro.a"))),
        f"lib/{shared_object()}": plain(read_bytes(os.path.join(library, shared_object()))),
        "lib/libsefunjaro.so": link(shared_object()),
        "lib/pkgconfig/sefunjaro.pc": plain(pkg_config("${pcfiledir}/../..", "${prefix}/lib")),
    }


def wants(library):
    """The least version of the C library that programs and library want, as a text."""
    return "{}.{}".format(*glibc(*(program.path for program in programs()), os.path.join(library, shared_object())))


def of_pages(library):
    """Pages for users, manual pages and completions."""
    readme = read("bin", "release", "installed.in").format(version=version(), major=major(), glibc=wants(library), name=name())
    found = {f"{DOC}/README.md": plain(readme)}
    found.update({f"{DOC}/{os.path.basename(path)}": plain(read(path)) for path in DOCUMENTS})
    found.update({f"share/man/{path}": plain(text) for path, text in manual.pages().items()})
    found.update({f"share/{path}": plain(text) for path, text in completions.completions().items()})
    return found


def proved(gate):
    """What was proved, in lines that sha256sum takes for comments."""
    return f"# sefunjaro {version()}\n# commit {commit()}\n# kit {run('rt', 'version').strip()}\n# gate {gate}\n"


def line(data, path):
    """The checksum of a file, in the form that sha256sum reads."""
    return f"{sum_of(data)}  {path}\n"


def sums(files):
    """The checksums of all files."""
    return "".join(line(tree.bytes_of(files, path), path) for path in sorted(files))


def files(library, gate):
    """All files of a release by their paths below its prefix."""
    found = {**of_programs(), **of_library(library), **of_pages(library)}
    found[f"{DOC}/PROVED"] = plain(proved(gate) + sums(found))
    return found


def archive(found, epoch):
    return tree.packed(found, name(), epoch)
