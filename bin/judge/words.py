"""The words of a script: --help, and whether each word is what it should be, before anything is built or written."""
import os
import sys


def is_file(word):
    """Whether it can be read, and is no folder; a pipe is fine."""
    return os.access(word, os.R_OK) and not os.path.isdir(word)


def is_number(word):
    return word.isascii() and word.isdecimal() and int(word) > 0


KINDS = {"file": is_file, "folder": os.path.isdir, "number": is_number, "word": bool}


def refuse(text, why):
    """Ends with status 1, and the usage that a script's own text begins with."""
    print(text.split("\n", 1)[0], why, sep="\n", file=sys.stderr)
    sys.exit(1)


def words(text, *kinds):
    """The words that the script was given, each of the kind named at its place: file, folder, number or word. `?` after a kind says
    that the word may be missing, `*` after the last that there may be any number of them. With --help as the only word it prints the
    script's own text and ends with 0; with other words than these it ends with 1."""
    given = sys.argv[1:]
    if given == ["--help"]:
        sys.stdout.write(f"{text}\n")
        sys.exit(0)
    least = sum(kind[-1] not in "?*" for kind in kinds)
    if kinds and kinds[-1].endswith("*"):
        kinds += kinds[-1:] * len(given)
    if not least <= len(given) <= len(kinds):
        refuse(text, f"{len(given)} words were given")
    for word, kind in zip(given, kinds):
        kind = kind.rstrip("?*")
        if not KINDS[kind](word):
            refuse(text, f"{word} is no {kind}" + (" that can be read" if kind == "file" else " from 1 on" if kind == "number" else ""))
    return given
