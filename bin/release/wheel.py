"""The module for Python as it is installed: a package with the shared object inside, as a wheel, and its metadata."""
import base64
import hashlib
import io
import os
import re
import shutil
import subprocess
import tempfile
import time
import zipfile

from checkout import PROCESSOR, ROOT, epoch, glibc, read, read_bytes, run
from layout import shared_object

LICENSES = ["LICENSE-MIT", "LICENSE-APACHE", "NOTICES"]
# The least version of the GNU C library that a tag can name on this processor.
LEAST = (2, 5)
# Up to which minor version of Python 3 a command is looked for.
MOST = 30
# Ends with 0 where a Python is what its command says, a release of the common kind, and has the headers that a module in C takes.
HAS_HEADERS = """
import os, sys, sysconfig
fits = "python3.%d" % sys.version_info[1] == sys.argv[1] and sys.version_info[3] == "final" and not sysconfig.get_config_var("Py_GIL_DISABLED")
sys.exit(0 if fits and os.path.exists(os.path.join(sysconfig.get_paths()["include"], "Python.h")) else 1)
"""
GENERATOR = "Wheel-Version: 1.0\nGenerator: sefunjaro\nRoot-Is-Purelib: false\nTag: {tag}\n"


def project(name):
    """A field of bindings/python/pyproject.toml."""
    return re.search(rf'^{name} = (?:\{{text = )?"([^"]*)"', read("bindings", "python", "pyproject.toml"), re.M)[1]


def info():
    """The folder of the metadata."""
    return f"{project('name')}-{project('version')}.dist-info"


def description():
    """What the module's own docstring says."""
    return re.match(r'"""(.*?)"""', read("bindings", "python", "sefunjaro.py"), re.S)[1].strip()


def metadata():
    fields = [
        "Metadata-Version: 2.1", f"Name: {project('name')}", f"Version: {project('version')}", f"Summary: {project('description')}",
        f"License: {project('license')}", *(f"License-File: {name}" for name in LICENSES), "Classifier: Typing :: Typed",
        "Classifier: Operating System :: POSIX :: Linux", f"Requires-Python: {project('requires-python')}",
        "Description-Content-Type: text/plain",
    ]
    return "\n".join(fields) + f"\n\n{description()}\n\nWith the shared object inside it wants a processor of {PROCESSOR}.\n"


def module():
    """The files of the package without the shared object, by their paths."""
    return {"sefunjaro/__init__.py": read("bindings", "python", "sefunjaro.py").encode(), "sefunjaro/py.typed": b""}


def with_record(files):
    """The files, and the list of them with their checksums."""
    lines = []
    for path, data in files.items():
        digest = base64.urlsafe_b64encode(hashlib.sha256(data).digest()).rstrip(b"=").decode()
        lines.append(f"{path},sha256={digest},{len(data)}")
    record = f"{info()}/RECORD"
    return {**files, record: "".join(f"{line}\n" for line in [*lines, f"{record},,"]).encode()}


def zipped(files):
    """A zip archive of the files, with the one time."""
    made, moment = io.BytesIO(), time.gmtime(epoch())[:6]
    with zipfile.ZipFile(made, "w", zipfile.ZIP_DEFLATED) as archive:
        for path, data in files.items():
            entry = zipfile.ZipInfo(path, moment)
            entry.external_attr, entry.compress_type, entry.create_system = 0o100644 << 16, zipfile.ZIP_DEFLATED, 3
            archive.writestr(entry, data, compresslevel=9)
    return made.getvalue()


def pythons():
    """The commands of PATH, as python3.11, that start a version which the module allows and for which one in C can be built here."""
    least = int(project("requires-python").rpartition(".")[2])
    there = [command for command in (f"python3.{minor}" for minor in range(least, MOST)) if shutil.which(command)]
    quiet = {"stdin": subprocess.DEVNULL, "stdout": subprocess.DEVNULL, "stderr": subprocess.DEVNULL}
    return [command for command in there if subprocess.run([command, "-c", HAS_HEADERS, command], **quiet).returncode == 0]


def in_c(python, folder):
    """The path of the module in C for the Python that a command starts, built in a folder, and the tag of that version."""
    run(os.path.join(ROOT, "bin", "make_module"), folder, python, env={**os.environ, "CFLAGS": "-s"})
    version = run(python, "-c", "import sys; print('cp{}{}'.format(*sys.version_info))").strip()
    return os.path.join(folder, os.listdir(folder)[0]), f"{version}-{version}"


def wheel(library, python=None):
    """The wheel's name and its bytes, over the shared object of a folder: over ctypes for each version of Python, or with the module in C
    for the one that a command starts."""
    with tempfile.TemporaryDirectory() as folder:
        paths, kind = [os.path.join(library, shared_object())], "py3-none"
        if python is not None:
            path, kind = in_c(python, folder)
            paths.append(path)
        tag = "{}-manylinux_{}_{}_x86_64".format(kind, *max(glibc(*paths), LEAST))
        files = {**module(), **{f"sefunjaro/{os.path.basename(path)}": read_bytes(path) for path in paths}}
    files.update({f"{info()}/{name}": read(name).encode() for name in LICENSES})
    files[f"{info()}/METADATA"] = metadata().encode()
    files[f"{info()}/WHEEL"] = GENERATOR.format(tag=tag).encode()
    return f"{project('name')}-{project('version')}-{tag}.whl", zipped(with_record(files))
