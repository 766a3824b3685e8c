"""The manual pages of the programs: their text is that of docs/PROGRAMS.md."""
import re
import time

import fronts
import header
import markdown
import roff
from checkout import epoch, programs, read, version

MACHINE = "/usr/share/zoneinfo/tzdata.zi"
# What makes the file that most examples are over.
SOURCE = markdown.Command(f"zone plain {MACHINE} > zones.txt", [])
OUTSIDE = ["tzfile(5)", "zdump(8)", "zic(8)"]
ELSEWHERE = "What goes for all programs, and what each fault line means, stands in `sefunjaro(7)`."
SHIPPED = "The source of the tz database, as most systems have it; `zone(1)` writes it in plain form."
BUILT_HERE = "9"
# A word of a command that may be a file in the folder.
READ = re.compile(r"(?:^|\s|\$PWD/)([\w.]+)(?=\s|$)")
COMMON = [
    ("`--help`", "as the only word: writes the usage, the statuses and an example, and ends with status 0."),
    ("`--version`", "as the only word: writes the version, and ends with status 0. A file of such a name is asked for as `./--help`."),
]
# Where a bare program's section tells its options, and its statuses.
OF_OPTIONS, OF_STATUSES = re.compile(r"`--(?!help)[a-z]"), re.compile(r"\bwith status 1\b")
# A picture beside the words of a cell.
PICTURE = re.compile(r", \[[^]]*\]\([^)]*\.svg\)")
# What is said of a checkout alone.
OF_CHECKOUT = re.compile(r"`bin/|stored here")


def page(name, section, parts):
    date = time.strftime("%Y-%m-%d", time.gmtime(epoch()))
    return roff.page(name, section, date, f"Sefunjaro {version()}", "Sefunjaro", parts)


def see(own, *names):
    """The names of other pages, in bold, with their sections."""
    found = [re.sub(r"(\w+)(\(\d\))", r"\\fB\1\\fR\2", name) for name in names if name != own]
    return ",\n".join(found) + "\n"


def pages_of_programs():
    return [f"{program.name}(1)" for program in sorted(programs())]


def installed(command):
    """A command as it is where the programs are installed, over the system's own source."""
    return re.sub(r"\bbin/(?=[a-z_]+\b)", "", re.sub(r" --source crates/\S+", "", command))


def is_made_for(words, name):
    """Whether a text begins with a call of the program, as `zone_answers --generate N` or `zone plain FILE`."""
    return words.startswith(f"`{name} ")


class Section:
    """The section of a program in docs/PROGRAMS.md, by what a manual page has of it. A bare program, which no front speaks for, tells its
    options and statuses there too, a paragraph each."""

    def __init__(self, name, blocks, is_bare=False):
        self.name, self.is_bare = name, is_bare
        self.description, self.options, self.statuses, self.commands, self.tables = [], [], [], [], []
        first = blocks[0].text
        self.calls = re.findall(r"^`([^`]*)`", first)
        self.does = re.sub(r"^`[^`]*` ", "", first)
        self.description.append(roff.text(first))
        for block in blocks[1:]:
            self.take(block)

    def take(self, block):
        if block.kind == "code":
            self.commands += [markdown.Command(installed(command), due) for command, due in markdown.commands(block)]
        elif is_made_for(block.text, self.name):
            call, words = re.match(r"`([^`]*)`,? ?(.*)", block.text).groups()
            self.calls.append(call)
            self.options.append(roff.items([(f"`{call.removeprefix(self.name + ' ')}`", words)]))
        elif block.kind == "table":
            self.tables.append(block.rows)
            self.description.append(roff.items([[PICTURE.sub("", cell) for cell in row] for row in block.rows]))
        elif self.is_bare and OF_STATUSES.search(block.text):
            self.statuses.append(roff.text(block.text))
        elif self.is_bare and OF_OPTIONS.search(block.text):
            self.options.append(roff.text(block.text))
        else:
            self.description.append(roff.text(block.text))

    def summary(self):
        """What the program does, in a line without a full stop."""
        return roff.inline(self.does.partition(". ")[0].rstrip("."))


def sections():
    """The sections of the programs, by their names."""
    found = markdown.sections(read("docs", "PROGRAMS.md"))
    return {program.name: Section(program.name, found[program.name], fronts.is_bare(program)) for program in programs()}


def made_by(commands):
    """Which command makes each file that commands write by a redirection."""
    return {name: command for command in commands for name in re.findall(r"> ([\w.]+)$", command.command)}


def examples(found, name):
    """The commands of a program's page, each file made before it is read: what another section makes is made here too."""
    makers = {"zones.txt": SOURCE}
    for section in found.values():
        makers.update(made_by(section.commands))
    made = []

    def add(command):
        for word in READ.findall(command.command):
            if makers.get(word, command) not in [command, *made]:
                add(makers[word])
        made.append(command)

    for command in found[name].commands:
        if command not in made:
            add(command)
    return made


def statuses(own=()):
    """The table of statuses, without that of a program that couldn't be built, and what stands behind it, or what a program tells of its own."""
    table, *others = markdown.sections(read("docs", "PROGRAMS.md"))["Statuses"]
    rows = [row for row in table.rows if row[0] != BUILT_HERE]
    said = [block.text.partition(" `--help`")[0].replace("The script", "The program's front") for block in others]
    return roff.items(rows) + "".join(own or map(roff.text, said))


def of_program(found, name):
    section = found[name]
    synopsis = "\n.br\n".join(roff.call(call) for call in [*section.calls, f"{name} --help", f"{name} --version"])
    parts = [
        ("NAME", f"{name} \\- {section.summary()}\n"),
        ("SYNOPSIS", f"{synopsis}\n"),
        ("DESCRIPTION", "".join(section.description) + roff.text(ELSEWHERE)),
        ("OPTIONS", "".join([*section.options, "" if section.is_bare else roff.items(COMMON)])),
        ("EXIT STATUS", statuses(section.statuses)),
        ("EXAMPLES", roff.example(examples(found, name))),
        ("SEE ALSO", see(f"{name}(1)", *pages_of_programs(), "sefunjaro(3)", *OUTSIDE, "sefunjaro(7)")),
    ]
    return page(name, 1, parts)


def of_all():
    """The page of what goes for all programs."""
    found, described = markdown.sections(read("docs", "PROGRAMS.md")), sections()
    said = [sentence for block in found[""] if block.kind == "text" for sentence in [kept(block.text)] if sentence]
    faults = "".join(roff.items(block.rows) if block.kind == "table" else roff.text(block.text) for block in found["Fault lines"])
    parts = [
        ("NAME", "sefunjaro \\- time zones by proved programs, and their fault lines\n"),
        ("DESCRIPTION", "".join(map(roff.text, said))),
        ("PROGRAMS", roff.items([(f"`{name}(1)`", section.does) for name, section in sorted(described.items())])),
        ("EXIT STATUS", statuses()),
        ("FAULT LINES", faults),
        ("FILES", roff.items([(f"`{MACHINE}`", SHIPPED)])),
        ("SEE ALSO", see("", *pages_of_programs(), "sefunjaro(3)", *OUTSIDE)),
    ]
    return page("sefunjaro", 7, parts)


def kept(text):
    """The sentences of a text that are so where the programs are installed."""
    return " ".join(sentence for sentence in re.split(r"(?<=\.) (?=[A-Z])", text) if not OF_CHECKOUT.search(sentence))


def of_library():
    """The page of the library, and for each of its calls one that leads there."""
    parts = header.parts()
    parts.append(("SEE ALSO", see("", *pages_of_programs(), *OUTSIDE, "sefunjaro(7)")))
    found = {"man3/sefunjaro.3": page("sefunjaro", 3, parts)}
    found.update({f"man3/{name}.3": ".so man3/sefunjaro.3\n" for name in header.calls()})
    return found


def pages():
    """The sources of all pages, by their paths below share/man."""
    found = sections()
    made = {f"man1/{name}.1": of_program(found, name) for name in found}
    return {**made, **of_library(), "man7/sefunjaro.7": of_all()}


def all_examples():
    """The commands of the pages of the programs, by the program."""
    found = sections()
    return {name: examples(found, name) for name in found}
