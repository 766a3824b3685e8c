"""The crate for Rust as cargo packages it."""
import glob
import os
import shutil
import tempfile

from checkout import ROOT, read_bytes, run, version

BESIDE = ["LICENSE-MIT", "LICENSE-APACHE", "NOTICES"]


def crate():
    """The name of the package, and its bytes. Cargo works on a copy, in which the licences stand beside the manifest."""
    with tempfile.TemporaryDirectory(prefix="crate") as folder:
        copy = os.path.join(folder, "sefunjaro")
        shutil.copytree(os.path.join(ROOT, "bindings", "rust"), copy, ignore=shutil.ignore_patterns("target", "Cargo.lock"))
        for name in BESIDE:
            shutil.copy(os.path.join(ROOT, name), copy)
        run("cargo", "package", "--quiet", "--no-verify", "--offline", "--target-dir", folder, cwd=copy)
        name = f"sefunjaro-{version()}.crate"
        return name, read_bytes(os.path.join(folder, "package", name))
