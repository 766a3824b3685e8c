"""The release that a source names by its first line, as `# version 2026b`."""
import re


def release_of(text):
    """All that stands behind `# version `, if that is something and no control character; else None."""
    named = re.fullmatch("# version ([^\x00-\x1f\x7f]+)", text.split("\n")[0].removesuffix("\r"))
    return named and named[1]
