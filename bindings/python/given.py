"""What the scripts of this folder share with those of bin/: their words, and the folder of what they compare with."""
import os
import sys

ROOT = os.path.dirname(os.path.dirname(os.path.dirname(os.path.realpath(__file__))))
sys.dont_write_bytecode = True
sys.path.insert(0, os.path.join(ROOT, "bin", "judge"))
from words import words  # noqa: E402, F401
