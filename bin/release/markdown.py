"""The few forms of Markdown that docs/PROGRAMS.md has: headings, paragraphs, tables and indented commands with their output."""
import os
import re
import runpy
from collections import namedtuple

from checkout import ROOT, read

# A block: `heading`, `text` or `table`, whose rows are lists of cells, or `code`, whose rows are lines.
Block = namedtuple("Block", "kind text rows", defaults=("", ()))
# A command of a page, and the lines that it prints.
Command = namedtuple("Command", "command due")
pages = runpy.run_path(os.path.join(ROOT, "bin", "try_pages"))


def cells(line):
    return [cell.strip().replace("\\|", "|") for cell in re.split(r"(?<!\\)\|", line.strip().removeprefix("|").removesuffix("|"))]


def block_of(lines):
    if lines[0].startswith("    "):
        return Block("code", rows=[line[4:] for line in lines])
    if lines[0].startswith("#"):
        return Block("heading", lines[0].strip("# "))
    if len(lines) > 1 and re.fullmatch(r"[-|: ]+", lines[1]):
        return Block("table", rows=[cells(line) for line in lines[2:]])
    return Block("text", " ".join(lines))


def blocks(text):
    return [block_of(lines.split("\n")) for lines in re.split(r"\n\n+", text.strip("\n"))]


def sections(text):
    """The blocks of a page by the second heading that they stand below; `""` is what stands before the first."""
    found = {"": []}
    place = ""
    for block in blocks(text)[1:]:
        if block.kind == "heading":
            place = block.text.strip("`")
            found[place] = []
        else:
            found[place].append(block)
    return found


def commands(block):
    """The commands of a block of code."""
    return [Command(command, due) for _, command, due in pages["commands"](list(block.rows), 0)]


def of_page(name):
    """The commands of a page with their due lines, in its order."""
    return [Command(command, due) for begun, block in pages["blocks"](read(name)) for _, command, due in pages["commands"](block, begun)]


def fits(due, got):
    return pages["fits"](due, got)
