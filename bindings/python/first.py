#!/usr/bin/env python3
"""usage: first.py ZONES

The two answers with which the README begins."""
from given import words

words(__doc__, "file")

import sys
from datetime import datetime

from sefunjaro import Source

zone = Source.from_path(sys.argv[1]).zone("America/New_York")
print(datetime.fromtimestamp(1710054000, zone))
for instant in zone.instants(datetime(2024, 11, 3, 1, 30)):
    print(zone.text_at(instant.second, instant.nanosecond))
