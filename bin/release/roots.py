"""Fresh roots of Debian: made by mmdebstrap with all that they are to have, and asked without a network."""
import os
import shutil
import stat
import subprocess

from checkout import Stop, run

SUITE = "bookworm"
ALWAYS = ["man-db", "python3-venv", "python3-pip"]
TOOLS = ["gcc", "libc6-dev", "pkg-config"]
# Where the system keeps lists of its own, whatever is installed: their bytes change.
KEPT = ("var/lib/dpkg/", "var/log/", "var/cache/", "etc/ld.so.cache", "proc/", "dev/", "tmp/")
# How long a command may take.
SECONDS = 900
PLACES = "/opt/sefunjaro/bin:/usr/sbin:/usr/bin:/sbin:/bin"


def make(path, names):
    """Makes a root with packages of these names. Nothing is fetched after."""
    log = subprocess.run(["mmdebstrap", "--quiet", "--mode=root", "--variant=required", f"--include={','.join(names)}", SUITE, path],
                         stdout=subprocess.PIPE, stderr=subprocess.STDOUT, encoding="utf-8", errors="replace")
    if log.returncode != 0:
        raise Stop(f"mmdebstrap: {log.stdout[-2000:]}")


class Root:
    """A root, and the commands in it: without a network, and with nothing of this machine."""

    def __init__(self, path):
        self.path = path

    def run(self, command, **settings):
        """What a command prints, on both streams, and its status."""
        alone = ["unshare", "--net", "--mount", "--pid", "--fork", "--kill-child", f"--mount-proc={self.path}/proc"]
        chosen = (f"{key}={word}" for key, word in settings.items())
        clean = ["env", "-i", "HOME=/root", f"PATH={PLACES}", "LC_ALL=C.UTF-8", "DEBIAN_FRONTEND=noninteractive", *chosen]
        try:
            done = subprocess.run([*alone, "chroot", self.path, *clean, "bash", "-c", command], stdin=subprocess.DEVNULL, stdout=subprocess.PIPE,
                                  stderr=subprocess.STDOUT, encoding="utf-8", errors="replace", timeout=SECONDS)
        except subprocess.TimeoutExpired:
            raise Stop(f"{command}: no end after {SECONDS} s") from None
        return done.stdout, done.returncode

    def ask(self, command, **settings):
        """What a command prints that has to end with status 0."""
        told, status = self.run(command, **settings)
        if status != 0:
            raise Stop(f"{command}: status {status}\n{told[-3000:]}")
        return told

    def put(self, *paths):
        """Copies files into /tmp, and gives their places there."""
        for path in paths:
            shutil.copy(path, os.path.join(self.path, "tmp"))
        return " ".join(f"/tmp/{os.path.basename(path)}" for path in paths)

    def clear(self):
        """Empties /tmp."""
        run("find", os.path.join(self.path, "tmp"), "-mindepth", "1", "-delete")

    def listing(self):
        """What is in the root: each folder by its path, each file with its size and the time of its bytes, each link with its target."""
        found = set()
        for folder, folders, names in os.walk(self.path):
            for name in folders + names:
                path = os.path.join(folder, name)
                told, place = os.lstat(path), os.path.relpath(path, self.path)
                if place.startswith(KEPT):
                    continue
                if stat.S_ISDIR(told.st_mode):
                    found.add(place)
                else:
                    target = os.readlink(path) if stat.S_ISLNK(told.st_mode) else ""
                    found.add(f"{place} {told.st_mode:o} {told.st_size} {told.st_mtime_ns} {target}")
        return found
