"""The tests of zones by name in sefunjaro.py: python3 -m unittest, with SEFUNJARO_LIBRARY set."""
import copy
import os
import pathlib
import pickle
import subprocess
import sys
import tempfile
import threading
import unittest
from datetime import time, timedelta

import sefunjaro
from sefunjaro import Source, Zone
from test_sefunjaro import SOURCE, SPRING, TWICE, OfOther, hours, in_child, pickled


class Named(unittest.TestCase):
    """Zones of the machine's own source, which the environment names."""

    @classmethod
    def setUpClass(cls):
        cls.folder = tempfile.TemporaryDirectory()
        cls.path = os.path.join(cls.folder.name, "tzdata.zi")
        pathlib.Path(cls.path).write_text("# version 2026b\n" + SOURCE)
        cls.before = os.environ.get("SEFUNJARO_TZDATA")
        cls.use(cls.path)

    @classmethod
    def tearDownClass(cls):
        cls.use(cls.before)
        cls.folder.cleanup()

    @staticmethod
    def use(path):
        """Makes a file the machine's source, which this process hasn't read."""
        os.environ.pop("SEFUNJARO_TZDATA", None)
        if path is not None:
            os.environ["SEFUNJARO_TZDATA"] = path
        sefunjaro._machine.clear()
        Zone.clear_cache()

    def test_source(self):
        self.assertEqual(sefunjaro.available_zones(), set(Source(SOURCE)))
        source = sefunjaro.machine_source()
        self.assertEqual(source.version, "2026b")
        source.close()
        self.assertEqual(source.zone("Here/Middle").offset_at(SPRING), 7200)
        for again in [sefunjaro.machine_source(), *pickled(source)]:
            self.assertIs(again, source)
        self.assertEqual(pickled(source.zone("Here/Middle"))[0].offset_at(SPRING), 7200)
        # It is read once.
        os.environ["SEFUNJARO_TZDATA"] = "/nowhere"
        self.assertIs(sefunjaro.machine_source(), source)
        os.environ["SEFUNJARO_TZDATA"] = self.path

    def test_one_object(self):
        zone = sefunjaro.zone("Here/Middle")
        self.assertEqual((zone.key, zone.name, str(zone)), ("Here/Middle",) * 3)
        for again in (sefunjaro.zone("Here/Middle"), Zone.named("Here/Middle"), copy.copy(zone), copy.deepcopy(zone), *pickled(zone)):
            self.assertIs(again, zone)
        self.assertIsNot(sefunjaro.zone("There/Middle"), zone)
        self.assertIs(sefunjaro.zone("Here/Long"), sefunjaro.zone("Here/Long"))
        # In one zone datetime compares and subtracts local times, and leaves the folds aside.
        first, second = TWICE.replace(tzinfo=zone), TWICE.replace(tzinfo=sefunjaro.zone("Here/Middle"), fold=1)
        self.assertEqual((first, second - first), (second, timedelta(0)))
        with zone:
            zone.close()
        self.assertEqual(zone.offset_at(SPRING), 7200)
        shared = zone.share()
        self.assertEqual([again.offset_at(SPRING) for again in pickled(shared)], [7200] * 6)
        shared.close()
        self.assertEqual(zone.offset_at(SPRING), 7200)

    def test_own_objects(self):
        zone, own = sefunjaro.zone("Here/Middle"), Zone.no_cache("Here/Middle")
        self.assertIsNot(zone, own)
        for again in pickled(own):
            self.assertNotIn(again, (own, zone))
            self.assertEqual(again.offset_at(SPRING), 7200)
        own.close()
        with self.assertRaises(sefunjaro.NotOpen):
            own.offset_at(0)

    def test_cleared(self):
        def objects():
            return [sefunjaro.zone(name) for name in ("Here/Middle", "Here/Long", "There/Middle")]

        def same(one, other):
            return [first is second for first, second in zip(one, other)]

        zones = objects()
        Zone.clear_cache(only_keys=["Here/Middle", "Here/Long", "None"])
        later = objects()
        self.assertEqual(same(zones, later), [False, False, True])
        Zone.clear_cache(only_keys=None)
        self.assertEqual(same(later, objects()), [False] * 3)
        self.assertEqual(zones[0].offset_at(SPRING), 7200)
        with self.assertRaises(TypeError):
            Zone.clear_cache(["Here/Middle"])
        self.assertIs(pickled(zones[0])[0], sefunjaro.zone("Here/Middle"))

    def test_subclasses(self):
        zone, other = sefunjaro.zone("Here/Middle"), OfOther.named("Here/Middle")
        self.assertEqual((type(zone), type(other)), (Zone, OfOther))
        for again in pickled(other):
            self.assertIs(again, other)
        OfOther.clear_cache()
        self.assertIsNot(OfOther.named("Here/Middle"), other)
        self.assertIs(sefunjaro.zone("Here/Middle"), zone)
        self.assertIs(type(OfOther.no_cache("Here/Middle")), OfOther)

    def test_names(self):
        for name in ("Here/Nowhere", "", "here/middle", "../Here/Middle", "/Here/Middle", "Here/Middle/", "Ä", "\ud800", "Here/Middle\0"):
            for call in (sefunjaro.zone, Zone.no_cache):
                with self.assertRaises(KeyError) as raised:
                    call(name)
                self.assertIs(type(raised.exception), sefunjaro.UnknownZone)
                self.assertIn(repr(name), str(raised.exception))
        self.assertIn("zero byte", str(raised.exception))
        for name in (None, 5, b"Here/Middle"):
            with self.assertRaises(TypeError):
                sefunjaro.zone(name)

    def test_no_source(self):
        wrong = os.path.join(self.folder.name, "wrong")
        pathlib.Path(wrong).write_text("nothing\n")
        try:
            for path, kind, words in ((f"{self.folder.name}/none", sefunjaro.NoTzdata, "which SEFUNJARO_TZDATA names"),
                                      (self.folder.name, sefunjaro.NoTzdata, "which SEFUNJARO_TZDATA names"),
                                      (wrong, sefunjaro.NoPlainForm, "LINE_TYPE")):
                self.use(path)
                for call in (sefunjaro.available_zones, sefunjaro.machine_source, lambda: sefunjaro.zone("Here/Middle")):
                    with self.assertRaises(kind) as raised:
                        call()
                    self.assertIn(path, str(raised.exception))
                    self.assertIn(words, str(raised.exception))
                    self.assertEqual(isinstance(raised.exception.__cause__, OSError), kind is sefunjaro.NoTzdata)
            self.use("")
            place, sefunjaro._TZDATA = sefunjaro._TZDATA, f"{self.folder.name}/none"
            try:
                with self.assertRaisesRegex(sefunjaro.NoTzdata, f"'{sefunjaro._TZDATA}', and SEFUNJARO_TZDATA names no other"):
                    sefunjaro.zone("Here/Middle")
            finally:
                sefunjaro._TZDATA = place
            # What couldn't be read is looked for again.
            os.environ["SEFUNJARO_TZDATA"] = self.path
            self.assertEqual(sefunjaro.zone("Here/Middle").offset_at(SPRING), 7200)
        finally:
            self.use(self.path)

    @unittest.skipUnless(os.path.exists(sefunjaro._TZDATA), "the machine has no source")
    def test_machine(self):
        try:
            self.use(None)
            paris = sefunjaro.zone("Europe/Paris")
            self.assertEqual(TWICE.replace(tzinfo=paris, fold=1).isoformat(), "2024-10-27T02:30:00+01:00")
            self.assertLessEqual({"Europe/Paris", "America/New_York", "UTC"}, sefunjaro.available_zones())
            self.assertEqual(time(12, tzinfo=sefunjaro.zone("UTC")).utcoffset(), hours(0))
        finally:
            self.use(self.path)

    def test_processes(self):
        """A pickle of a zone by name goes to another process, of which that is the one object."""
        code = "import pickle, sys, sefunjaro; print(pickle.load(sys.stdin.buffer) is sefunjaro.zone('Here/Middle'))"
        pickle_of_zone = pickle.dumps(sefunjaro.zone("Here/Middle"))
        told = subprocess.run([sys.executable, "-c", code], input=pickle_of_zone, stdout=subprocess.PIPE, check=True)
        self.assertEqual(told.stdout, b"True\n")

    def test_threads(self):
        for _ in range(50):
            sefunjaro._machine.clear()
            Zone.clear_cache()
            barrier, found = threading.Barrier(8), []

            def ask():
                barrier.wait()
                found.append((sefunjaro.zone("Here/Middle"), sefunjaro.machine_source()))

            threads = [threading.Thread(target=ask) for _ in range(8)]
            for thread in threads:
                thread.start()
            for thread in threads:
                thread.join()
            self.assertEqual((len(found), len(set(found))), (8, 1))

    def test_fork(self):
        ends = threading.Event()

        def ask():
            while not ends.is_set():
                sefunjaro._machine.clear()
                Zone.clear_cache()
                sefunjaro.zone("Here/Middle")

        threads = [threading.Thread(target=ask) for _ in range(4)]
        for thread in threads:
            thread.start()
        children = [in_child(lambda: sefunjaro.zone("Here/Middle").offset_at(SPRING) == 7200) for _ in range(20)]
        ends.set()
        for thread in threads:
            thread.join()
        self.assertEqual(children, [True] * 20)


if __name__ == "__main__":
    unittest.main()
