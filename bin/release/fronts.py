"""The fronts of the programs: what is installed as bin/NAME, a small sh script over libexec/sefunjaro/NAME."""
import re

from checkout import read, version

START = """self=$0
case $self in */*) ;; *) self=./$self ;; esac
if [ -L "$self" ]; then self=$(readlink -f -- "$self"); fi
inside=${self%/*}/../libexec/sefunjaro
"""
# A script in bin/ that goes on in this one tells by its own lines what the front has to know.
SHARED = re.compile(r"^\. .*zone_program.*\n", re.M)
OF_CHECKOUT = re.compile(r"^# How it is proved.*\n", re.M)


def is_bare(program):
    """Whether a program says by itself what a front would: its script in bin/ has no lines for one."""
    return program.settings.get("passes") == "yes"


def front(program):
    """The front of a program: the lines of its script in bin/, and then the shared ones; that of a bare one only starts it."""
    if is_bare(program):
        return f'#!/bin/sh\n{START}exec "$inside/{program.name}" "$@"\n'
    lines = OF_CHECKOUT.sub("", SHARED.sub("", program.lines))
    lines = re.sub(r"^#!.*\n", "#!/bin/sh\n", re.sub(r"(?<![/\w])bin/", "", lines))
    return f'{lines}{START}. "$inside/front"\n'


def shared():
    """What the fronts share, beside the programs."""
    return read("bin", "front") + f"\nversion={version()}\n\n" + read("bin", "release", "front.sh")
