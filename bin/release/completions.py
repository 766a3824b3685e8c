"""Completion of the programs' words in bash and in zsh, by how each is called."""
import re

from manual import sections

BASH = """# Completion of {name} in bash.
_{name}() {{
    local words=({words}) word=${{COMP_WORDS[COMP_CWORD]}} file=1 zone
{forms}    local place=${{words[COMP_CWORD - 1]:-}}
    if [[ ${{words[0]}} != FILE ]]; then file=2; fi
    COMPREPLY=()
    case $place in
        [a-z]*) mapfile -t COMPREPLY < <(compgen -W "${{words[0]}} {options}" -- "$word") ;;
        FILE)
            compopt -o filenames
            mapfile -t COMPREPLY < <(compgen -f -- "$word"; [[ $COMP_CWORD -gt 1 ]] || compgen -W "{options}" -- "$word")
            ;;
        NAME)
            while read -r zone; do
                if [[ $zone == "$word"* ]]; then
                    printf -v zone %q "$zone"
                    COMPREPLY+=("$zone")
                fi
            done < <(awk '$1 == "Zone" {{ print $2 }} $1 == "Link" {{ print $3 }}' "${{COMP_WORDS[file]}}" 2>/dev/null)
            ;;
    esac
}}
complete -F _{name} {name}
"""
ZSH = """#compdef {names}
# Completion of the programs of Sefunjaro in zsh.
_sefunjaro_zones() {{
    local -a zones
    local file=${{(Q)words[2]}}
    [[ -e $file ]] || file=${{(Q)words[3]}}
    zones=(${{(f)"$(awk '$1 == "Zone" {{ print $2 }} $1 == "Link" {{ print $3 }}' $file 2>/dev/null)"}})
    compadd -a zones
}}

case $service in
{cases}
esac
"""
CASE = """    {name})
        _arguments {options}{words}
        ;;"""


# The command for people, which tells the names of the machine's source itself.
OWN = "zone"
OWN_BASH = """# Completion of zone in bash.
_zone() {{
    local cur=${{COMP_WORDS[COMP_CWORD]}} name
    case $cur in
        -*) COMPREPLY=($(compgen -W "{options}" -- "$cur")) ;;
        *)
            if [[ $COMP_CWORD -eq 1 ]]; then
                COMPREPLY=($(compgen -W "{commands}" -- "$cur"))
            else
                while IFS= read -r name; do
                    if [[ $name == "$cur"* ]]; then COMPREPLY+=("$name"); fi
                done < <(zone names 2>/dev/null | sed 's/ -> .*//')
            fi
            ;;
    esac
}}
complete -F _zone zone
"""
OWN_ZSH = """#compdef zone
# Completion of zone in zsh.
if (( CURRENT == 2 )); then
    compadd -- {commands} {options}
else
    compadd -- ${{(f)"$(zone names 2>/dev/null | sed 's/ -> .*//')"}}
fi
"""
OPTIONS = "--source --rfc3339 --epoch --json --help --version"


def commands_of(section):
    """The commands of the table in the section of zone: the first word of each."""
    return sorted(set(re.findall(r"`([a-z]+)", " ".join(row[0] for row in section.tables[0]))))


def words_of(call):
    """The words of a call, in order."""
    return call.split()[1:]


def leading(section):
    """What may stand in front of a program's file, by its calls: `answers`, `list`, `alarm`."""
    return [call.split()[1] for call in section.calls if call.split()[1].islower() and call.split()[1][0] != "-"]


def options_of(section):
    """The options that may be a program's first word."""
    return [call.split()[1] for call in section.calls[1:] if call.split()[1][0] == "-"] + ["--help", "--version"]


def form(call):
    """The line that goes by the words of a call, where its first one is there."""
    words = words_of(call)
    return f'    if [[ $COMP_CWORD -gt 1 && ${{COMP_WORDS[1]}} == {words[0]} ]]; then words=({" ".join(words)}); fi\n'


def for_bash(name, section):
    forms = "".join(form(call) for call in section.calls[1:] if words_of(call)[0] in leading(section))
    options = " ".join([*leading(section)[1:], *options_of(section)])
    return BASH.format(name=name, words=" ".join(words_of(section.calls[0])), forms=forms, options=options)


def longest(section):
    """The words of the call that has the most, of those that begin with no option."""
    return max((words_of(call) for call in section.calls if words_of(call)[0][0] != "-"), key=len)


def zsh_word(place, word, leads):
    action = f"({' '.join(leads)})" if word in leads else {"FILE": "_files", "NAME": "_sefunjaro_zones"}.get(word, " ")
    return f"'{place}:{word}:{action}'"


def for_zsh(found):
    cases = [CASE.format(name=name, options="".join(f"'(- *){option}' " for option in options_of(section)),
                         words=" ".join(zsh_word(place, word, leading(section)) for place, word in enumerate(longest(section), 1)))
             for name, section in found.items()]
    return ZSH.format(names=" ".join(found), cases="\n".join(cases))


def completions():
    """The completions by their paths below share."""
    found = {name: section for name, section in sections().items() if section.calls}
    words = {"commands": " ".join(commands_of(found.pop(OWN))), "options": OPTIONS}
    made = {f"bash-completion/completions/{name}": for_bash(name, section) for name, section in found.items()}
    own = {f"bash-completion/completions/{OWN}": OWN_BASH.format(**words), f"zsh/site-functions/_{OWN}": OWN_ZSH.format(**words)}
    return {**made, **own, "zsh/site-functions/_sefunjaro": for_zsh(found)}
