"""Text of the pages as the source of a manual page, in the form of man-pages(7)."""
import re

SPAN = re.compile(r"`([^`]*)`|\[([^\]]*)\]\([^)]*\)|\*\*([^*]*)\*\*")
# Where a sentence ends; the source of a manual page has a line for each.
SENTENCE = re.compile(r"(?<=[.:;]) (?=[A-Z`*])")
# Words that stand in capitals for something else in a synopsis.
PLACE = re.compile(r"[A-Z][A-Z0-9]*$")


def escaped(text, is_code=False):
    text = text.replace("\\", "\\e")
    return text.replace("-", "\\-") if is_code else text


def code(text):
    """Code, in bold; a word of it isn't parted at a line's end."""
    unparted = "" if " " in text else "\\%"
    return f"\\fB{unparted}{escaped(text, True)}\\fR"


def inline(text):
    """A line of text, in which what is code is bold and what was a link is its words."""
    made, at = [], 0
    for found in SPAN.finditer(text):
        made.append(escaped(text[at:found.start()]))
        made.append(code(found[1]) if found[1] is not None else inline(found[2] if found[2] is not None else found[3]))
        at = found.end()
    return "".join([*made, escaped(text[at:])])


def guarded(line):
    """A line that isn't taken for a request."""
    return f"\\&{line}" if line.startswith((".", "'")) else line


def paragraph(text):
    return "".join(f"{guarded(inline(sentence))}\n" for sentence in SENTENCE.split(text))


def text(words):
    return f".PP\n{paragraph(words)}"


def items(rows):
    """A list of terms with what they mean."""
    return "".join(f".TP\n{guarded(inline(row[0]))}\n{paragraph(row[-1])}" for row in rows)


def listing(lines):
    """Lines as they stand."""
    return ".PP\n.RS 4\n.nf\n" + "".join(f"{guarded(line)}\n" for line in lines) + ".fi\n.RE\n"


def example(commands):
    """Commands with what they print."""
    lines = []
    for command, due in commands:
        lines += [f"$ {code(line)}" if place == 0 else code(line) for place, line in enumerate(command.split("\n"))]
        lines += [escaped(line, True) for line in due]
    return listing(lines)


def call(words):
    """How a program is called: `zone_list FILE NAME`."""
    name, *others = words.split()
    return " ".join([code(name), *(f"\\fI{word}\\fR" if PLACE.match(word) else code(word) for word in others)])


def page(name, section, date, source, manual, parts):
    """A whole page of named sections; one that is empty is left out."""
    head = f'.TH {name} {section} {date} "{source}" "{manual}"\n'
    return head + "".join(f'.SH {title}\n{made.removeprefix(f".PP{chr(10)}")}' for title, made in parts if made)
