#!/usr/bin/env python3
"""usage: cpython_tests.py

Runs CPython's own tests of zoneinfo over sefunjaro.py: each test class that takes the module zoneinfo takes one made of
`sefunjaro.Zone` in its place, which looks its keys up in the folders of compiled files that the tests lay out. They are those of the
package `test` of this Python; Debian has it in libpython3.11-testsuite. What a zone of a file does otherwise, as sefunjaro.py tells, is
listed below with its reason: such a test has to fail, and every other to pass. The saving, which a file doesn't say, is taken as None.

It prints how many passed, and how many are told otherwise; the exit status is 0, or 1 where one isn't as it should be."""
import os
import re
import sys
import types
import unittest

from given import words

words(__doc__)
import sefunjaro  # noqa: E402

NO_PATHS = "a zone's name is no path, and is looked up in a source"
PICKLED = "a zone of a file is pickled, with its bytes"
# Names of tests that are told otherwise, and why; of some only the cases that have this in their names.
CASES = {"test_invalid_tzstr": r":\d(\D|$)"}
OTHERWISE = {
    "test_invalid_tzstr": "minutes and seconds of a string are numbers, which may have one digit",
    "test_utc": "a file doesn't say the saving, so it is None and not zero",
    "test_str": "the text of a zone of a file without a name is \"file\"",
    "test_bad_keys_paths": NO_PATHS,
    "test_from_file": PICKLED,
    "test_pickle_after_from_file": PICKLED,
}
# Test classes of what sefunjaro.py doesn't have: paths of its own, and the module's list of names.
APART = ("TzPathTest", "TestModule", "ExtensionBuiltTest", "CallingConventionTest")


class ZoneInfo(sefunjaro.Zone):
    """A zone of a compiled file in a folder of the tests, by its key."""

    def __new__(cls, key):
        return cls.named(key)

    def __init__(self, key):
        """It was opened before."""

    @classmethod
    def no_cache(cls, key):
        for folder in module.TZPATH:
            path = os.path.join(folder, *key.split("/"))
            try:
                with open(path, "rb") as file:
                    zone = cls._of_file(file.read(), key, key)
                    zone._origin = cls.no_cache, (key,)
                    return zone
            except (OSError, UnicodeEncodeError):
                continue
        raise module.ZoneInfoNotFoundError(key)

    @classmethod
    def from_file(cls, file, /, key=None):
        told = file.read()
        # A file without a kind of time is none by RFC 8536. The tests of strings have such ones: their strings are opened by themselves.
        if told[20:44] == told[64:88] == bytes(24):
            return cls.from_posix(told.split(b"\n")[1].decode())
        return cls._of_file(told, key or "file", key)


def reset_tzpath(to=None):
    module.TZPATH = tuple(to or ())


module = types.ModuleType("zoneinfo")
module.ZoneInfo, module.ZoneInfoNotFoundError = ZoneInfo, type("ZoneInfoNotFoundError", (KeyError,), {})
module.TZPATH, module.reset_tzpath = (), reset_tzpath
ZoneInfo.__module__, ZoneInfo.__qualname__ = "zoneinfo", "ZoneInfo"


def without_saving(tests):
    """The tests' offsets, of which the saving is None."""
    made = tests.ZoneOffset.__init__

    def init(self, tzname, utcoffset, dst=None):
        made(self, tzname, utcoffset, None)

    tests.ZoneOffset.__init__ = init


def suite(tests):
    found = unittest.TestSuite()
    for name, kind in vars(tests).items():
        is_first = isinstance(kind, type) and issubclass(kind, tests.ZoneInfoTestBase) and hasattr(kind, "module")
        if is_first and name.startswith("C") and not name.startswith(tuple(f"C{it}" for it in APART)) and name not in APART:
            kind.module = module
            found.addTests(unittest.defaultTestLoader.loadTestsFromTestCase(kind))
    return found


def is_told_otherwise(case):
    """Whether the case of a test, by its whole name, is one that sefunjaro.py tells otherwise."""
    test, _, of = case.partition(" ")
    name = test.rpartition(".")[2]
    return name in OTHERWISE and re.search(CASES.get(name, ""), of) is not None


def main():
    from test.test_zoneinfo import test_zoneinfo as tests

    without_saving(tests)
    result = unittest.TestResult()
    suite(tests).run(result)
    failed = {}
    for case, told in [*result.failures, *result.errors]:
        failed.setdefault(case.id(), told)
    wrong = {name: told for name, told in failed.items() if not is_told_otherwise(name)}
    for name, told in wrong.items():
        print(f"{name}:\n{told}", file=sys.stderr)
    otherwise = {name.partition(" ")[0] for name in failed if name not in wrong}
    print(f"{result.testsRun - len(otherwise) - len(wrong) - len(result.skipped)} passed, {len(otherwise)} told otherwise, "
          f"{len(result.skipped)} skipped, {len(wrong)} failed")
    return 1 if wrong or not result.testsRun else 0


if __name__ == "__main__":
    sys.exit(main())
