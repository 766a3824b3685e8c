#!/usr/bin/env python3
"""usage: layouts.py

The layout of each struct that crosses to the library, as `callers/layouts.c` prints it: its size, and where its fields begin."""
import ctypes

from given import words

words(__doc__)
import sefunjaro  # noqa: E402

for name in ("Handle", "Fault", "InForce", "Clock", "Reading", "Gap", "Found", "Answer", "Years", "Change", "Instant"):
    struct = getattr(sefunjaro, f"_Raw{name}")
    fields = (f"{field} {getattr(struct, field).offset}" for field, _ in struct._fields_)
    print(f"{name} {ctypes.sizeof(struct)}:", *fields)
