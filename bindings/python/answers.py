#!/usr/bin/env python3
"""usage: answers.py ZONES <REQUESTS

Answers the requests on standard input as zone_answers does, each zone opened once."""
import sys

from given import words

ZONES, = words(__doc__, "file")
import sefunjaro  # noqa: E402


def answer(zone, kind, value):
    """The line that a request is due."""
    if kind == "at":
        return zone.text_at(*divmod(int(value), 10**9))
    instants = zone.instants(sefunjaro.read_local(value))
    return " | ".join(zone.text_at(instant.second, instant.nanosecond) for instant in instants) or "none"


def main():
    source, zones = sefunjaro.Source.from_path(ZONES), {}
    for line in sys.stdin:
        kind, name, value = line.rstrip("\n").split(" ", 2)
        if name not in zones:
            zones[name] = source.zone(name)
        sys.stdout.write(answer(zones[name], kind, value) + "\n")


main()
