"""The packages for Debian: the files of a release where Debian has them."""
import hashlib
import os
import re
import tempfile
import time

import layout
import tree
import wheel
from checkout import PROCESSOR, commit, epoch, maintainer, major, read, read_bytes, run, version
from tree import link, plain, zipped

MULTIARCH = "x86_64-linux-gnu"
LIBRARY = f"usr/lib/{MULTIARCH}"
REVISION = "1"
EITHER = """\
The licence is that of MIT, below, or Apache-2.0, as you choose; on Debian systems the latter stands in
/usr/share/common-licenses/Apache-2.0."""
ABOUT = f"""\
 Sefunjaro reads the source text of the tz database, works out when each zone
 changes its offset, and converts both ways between instants and local times,
 with every gap and fold. It is written in Rust with contracts, and proved.
 .
 {{own}}
 .
 It wants a processor of {PROCESSOR}, made from 2009 on.
"""


class Package:
    """A package: its control fields, its files, and the scripts and lists that stand beside the control file."""

    def __init__(self, name, section, depends, summary, own, files, beside=(), more=()):
        self.name, self.section, self.depends, self.summary, self.own = name, section, depends, summary, own
        self.files, self.beside, self.more = dict(files), dict(beside), dict(more)

    def control(self, release):
        size = sum(-(-len(file.data) // 1024) for file in self.files.values()) + len(tree.folders(self.files))
        fields = {
            "Package": self.name, "Source": "sefunjaro", "Version": release, "Architecture": "amd64", "Maintainer": maintainer(),
            "Installed-Size": size, "Depends": self.depends, **self.more, "Section": self.section, "Priority": "optional",
            "Description": self.summary,
        }
        if fields["Source"] == self.name:
            del fields["Source"]
        return "".join(f"{key}: {value}\n" for key, value in fields.items()) + ABOUT.format(own=self.own)


def moved(files, places):
    """The files whose path begins with one of these places, where that is led to."""
    found = {}
    for path, file in files.items():
        for place, other in places.items():
            if path.startswith(place):
                found[other + path.removeprefix(place)] = file
    return found


def manual(files, section):
    """The manual pages of a section, packed, and links in place of those that only lead to another."""
    found = {}
    for path, file in moved(files, {f"share/man/man{section}/": f"usr/share/man/man{section}/"}).items():
        leads = re.fullmatch(rb"\.so (?:\S+/)?(\S+)\n", file.data)
        found[f"{path}.gz"] = link(f"{leads[1].decode()}.gz") if leads else plain(zipped(file.data))
    return found


def copyright_text():
    """What a package has to say of the licences."""
    return f"{EITHER}\n\n{read('LICENSE-MIT')}\n{read('NOTICES')}"


def changelog(release):
    date = time.strftime("%a, %d %b %Y %H:%M:%S +0000", time.gmtime(epoch()))
    return f"sefunjaro ({release}) stable; urgency=medium\n\n  * Made of the commit {commit()}.\n\n -- {maintainer()}  {date}\n"


def documents(name, release):
    """What stands in the folder of each package's documents."""
    place = f"usr/share/doc/{name}"
    return {
        f"{place}/copyright": plain(copyright_text()),
        f"{place}/changelog.gz": plain(zipped(read("CHANGELOG.md").encode())),
        f"{place}/changelog.Debian.gz": plain(zipped(changelog(release).encode())),
    }


def of_programs(files, wants):
    places = {"bin/": "usr/bin/", "libexec/": "usr/libexec/", "share/bash-completion/": "usr/share/bash-completion/",
              "share/zsh/site-functions/": "usr/share/zsh/vendor-completions/", "share/doc/": "usr/share/doc/"}
    found = moved(files, places)
    for name in ("CHANGELOG.md", "LICENSE-MIT", "LICENSE-APACHE"):
        del found[f"usr/share/doc/sefunjaro/{name}"]
    # The programs stay the bytes that were proved and tried.
    found["usr/share/lintian/overrides/sefunjaro"] = plain("sefunjaro: unstripped-binary-or-object [usr/libexec/sefunjaro/*]\n")
    found = {**found, **manual(files, 1), **manual(files, 7)}
    # What was proved, with the checksums of this package's files, where they are.
    told = found.pop("usr/share/doc/sefunjaro/PROVED").data.decode()
    found["usr/share/doc/sefunjaro/PROVED"] = plain("".join(re.findall(r"^#.*\n", told, re.M)) + layout.sums(found))
    own = "Here are the programs, which answer requests and write zone files, strings\n and plain sources."
    return Package("sefunjaro", "utils", f"libc6 (>= {wants})", "proved time-zone programs", own, found, more={"Recommends": "tzdata"})


def of_library(files, wants):
    name = f"libsefunjaro{major()}"
    shared = layout.shared_object()
    beside = {"triggers": "activate-noawait ldconfig\n", "shlibs": f"libsefunjaro {major()} {name} (>= {version()})\n"}
    own = "Here is the shared object for C and for what stands over C."
    found = {f"{LIBRARY}/{shared}": files[f"lib/{shared}"]}
    return Package(name, "libs", f"libc6 (>= {wants})", "proved time-zone library", own, found, beside, {"Multi-Arch": "same"})


def of_development(files, release):
    places = {"include/": "usr/include/", f"{layout.DATA}/": f"usr/{layout.DATA}/"}
    found = {**moved(files, places), **manual(files, 3)}
    found[f"{LIBRARY}/libsefunjaro.a"] = files["lib/libsefunjaro.a"]
    found[f"{LIBRARY}/libsefunjaro.so"] = files["lib/libsefunjaro.so"]
    found[f"{LIBRARY}/pkgconfig/sefunjaro.pc"] = plain(layout.pkg_config("/usr", f"${{prefix}}/lib/{MULTIARCH}"))
    own = "Here are the header, the archive, the pages of the manual, and what\n pkg-config reads."
    return Package("libsefunjaro-dev", "libdevel", f"libsefunjaro{major()} (= {release})", "proved time-zone library, for building", own, found)


def of_python(release):
    place = "usr/lib/python3/dist-packages"
    found = {f"{place}/{path}": plain(data) for path, data in wheel.module().items()}
    found[f"{place}/{wheel.info()}/METADATA"] = plain(wheel.metadata())
    beside = {
        "postinst": "#!/bin/sh\nset -e\nif command -v py3compile >/dev/null; then py3compile -p python3-sefunjaro; fi\n",
        "prerm": "#!/bin/sh\nset -e\nif command -v py3clean >/dev/null; then py3clean -p python3-sefunjaro; fi\n",
    }
    own = "Here is the module for Python 3."
    depends = f"libsefunjaro{major()} (= {release}), python3 (>= {wheel.project('requires-python').strip('>=')})"
    return Package("python3-sefunjaro", "python", depends, "proved time zones for Python 3", own, found, beside)


def packed(package, release):
    """The bytes of a package."""
    files = {**package.files, **documents(package.name, release)}
    sums = "".join(f"{md5(file.data)}  {path}\n" for path, file in sorted(files.items()) if file.target is None)
    control = {"control": plain(package.control(release)), "md5sums": plain(sums)}
    control.update({name: plain(text, 0o755 if text.startswith("#!") else 0o644) for name, text in package.beside.items()})
    with tempfile.TemporaryDirectory(prefix="package") as folder:
        root, made = os.path.join(folder, "root"), os.path.join(folder, "made.deb")
        os.mkdir(root)
        tree.put({**files, **{f"DEBIAN/{name}": file for name, file in control.items()}}, root, epoch())
        run("dpkg-deb", "--root-owner-group", "-Zxz", "--threads-max=1", "--build", root, made, env={**os.environ, "SOURCE_DATE_EPOCH": str(epoch())})
        return read_bytes(made)


def md5(data):
    return hashlib.md5(data).hexdigest()


def packages(files, wants, release=None, also=()):
    """All packages by their names, as a version of Debian's (else that of the checkout); `also` is what is put into each besides."""
    release = release or f"{version()}-{REVISION}"
    made = {}
    for package in (of_programs(files, wants), of_library(files, wants), of_development(files, release), of_python(release)):
        package.files.update({path.format(name=package.name): file for path, file in dict(also).items()})
        made[f"{package.name}_{release}_amd64.deb"] = packed(package, release)
    return made
