"""The files of a release before they are anywhere: by its path each one's bytes and mode, or what it links to."""
import gzip
import io
import os
import tarfile
from collections import namedtuple

# A file: its bytes, and its mode; or with a target a symbolic link.
File = namedtuple("File", "data mode target", defaults=(b"", 0o644, None))


def plain(data, mode=0o644):
    return File(data.encode() if isinstance(data, str) else data, mode)


def link(target):
    return File(target=target)


def bytes_of(files, path):
    """The bytes that stand at a path, over a link too."""
    file = files[path]
    return file.data if file.target is None else bytes_of(files, os.path.normpath(os.path.join(os.path.dirname(path), file.target)))


def folders(files):
    """The folders that the files stand in, each before those in it."""
    found = set()
    for path in files:
        while os.path.dirname(path):
            path = os.path.dirname(path)
            found.add(path)
    return sorted(found)


def packed(files, top, epoch):
    """A tar archive under gzip: the same bytes for the same files, by whomever and wherever it is made."""
    made = io.BytesIO()
    with tarfile.open(fileobj=made, mode="w", format=tarfile.USTAR_FORMAT) as archive:
        for path in sorted([*files, *folders(files)]):
            entry = tarfile.TarInfo(f"{top}/{path}")
            entry.mtime, file = epoch, files.get(path)
            if file is None:
                entry.type, entry.mode = tarfile.DIRTYPE, 0o755
            elif file.target is not None:
                entry.type, entry.linkname, entry.mode = tarfile.SYMTYPE, file.target, 0o777
            else:
                entry.size, entry.mode = len(file.data), file.mode
            archive.addfile(entry, io.BytesIO(file.data) if file else None)
    return gzip.compress(made.getvalue(), 9, mtime=0)


def put(files, folder, epoch):
    """Writes the files below a folder, each with the one time."""
    for path in folders(files):
        os.mkdir(os.path.join(folder, path))
    for path in [".", *folders(files)]:
        os.chmod(os.path.join(folder, path), 0o755)
    for path, file in files.items():
        place = os.path.join(folder, path)
        if file.target is not None:
            os.symlink(file.target, place)
            continue
        with open(place, "wb") as written:
            written.write(file.data)
        os.chmod(place, file.mode)
    for path in [*files, *reversed(folders(files)), "."]:
        os.utime(os.path.join(folder, path), (epoch, epoch), follow_symlinks=False)


def zipped(data):
    """The bytes under gzip, without a time or a name."""
    return gzip.compress(data, 9, mtime=0)
