"""The manual page of the library: its text is that of include/sefunjaro.h and of the first caller in callers/."""
import re
import textwrap

import roff
from checkout import read

WIDTH = 72
HEAD = re.compile(r"/\*(.*?)\*/\n#ifndef", re.S)
# A comment, and what it stands before: a struct, an enum or a call, up to its end.
ITEM = re.compile(
    r"^/\* ((?:(?!\*/).)*) \*/\n((?:struct|enum)\b.*?^\};|static inline\b.*?^\}$|(?:uint32_t|void)\b.*?\);)", re.S | re.M
)
ANSWERED = ("Each call of the library but `sefunjaro_version` and `sefunjaro_close` answers a status of `enum sefunjaro_status`, of which 0, "
            "`SEFUNJARO_DONE`, says that all was written.")
SHOWN = "A source is opened, a zone of it, which is asked both ways, and both are closed:"
INSIDE = re.compile(r"^#ifdef __cplusplus\n.*?^#endif\n", re.S | re.M)


def joined(words):
    """The lines of a comment as one."""
    return re.sub(r"\s*\n\s*", " ", words.strip())


def items():
    """Each declaration of the header with its comment, but those by which a handle's copy is passed."""
    text = INSIDE.sub("", read("include", "sefunjaro.h"))
    return [(joined(words), declared) for words, declared in ITEM.findall(text) if "_by(struct" not in declared.partition("{")[0]]


def prototype(declared):
    """A call as it is declared, in lines of a page's width."""
    words = re.sub(r"^static inline ", "", declared).partition("{")[0].strip().rstrip(";")
    return textwrap.wrap(f"{words};", WIDTH, subsequent_indent=" " * 8, break_on_hyphens=False)


def is_call(declared):
    return declared.startswith(("static inline", "uint32_t", "void"))


def name_of(declared):
    return re.search(r"\b(sefunjaro_\w+)\(", declared)[1]


def calls():
    """The names of the calls, as they are declared for C."""
    return [name_of(declared) for _, declared in items() if is_call(declared)]


def description():
    """What stands at the header's head."""
    made = []
    for words in re.split(r"\n\n+", HEAD.search(read("include", "sefunjaro.h"))[1]):
        points = re.split(r"\n\s*- ", f"\n{words}")
        made.append(roff.text(joined(points[0])) if points[0].strip() else "")
        made += [f".IP \\(bu 3\n{roff.paragraph(joined(point))}" for point in points[1:]]
    return "".join(made)


def told(words, shown):
    return f".TP\n{shown}\n{roff.paragraph(words)}"


def as_it_stands(text):
    """Code in C, line by line."""
    return roff.listing([roff.escaped(line, True) for line in text.split("\n")])


def example():
    text = read("callers", "example.c")
    return re.sub(r"^/\*.*?\*/\n", "", text, flags=re.S).rstrip("\n")


def parts():
    """The sections of the page, but the last."""
    found = items()
    shown = [line for _, declared in found if is_call(declared) for line in prototype(declared)]
    linked = f"Link with {roff.code('pkg-config --cflags --libs sefunjaro')}."
    synopsis = roff.listing([roff.code("#include <sefunjaro.h>"), "", *map(roff.code, shown), "", linked])
    kinds = "".join(roff.text(words) + as_it_stands(declared) for words, declared in found if not is_call(declared))
    answers = "".join(told(words, f"\\fB{name_of(declared)}\\fR()") for words, declared in found if is_call(declared))
    return [
        ("NAME", ", ".join(["sefunjaro", *calls()]) + " \\- the zones of the tz database, by a proved library\n"),
        ("LIBRARY", "Sefunjaro (\\fIlibsefunjaro\\fR, \\fI\\-lsefunjaro\\fR)\n"),
        ("SYNOPSIS", synopsis),
        ("DESCRIPTION", f"{description()}.SS Calls\n{answers}.SS Types\n{kinds}"),
        ("RETURN VALUE", roff.text(ANSWERED)),
        ("EXAMPLES", roff.text(SHOWN) + as_it_stands(example())),
    ]
