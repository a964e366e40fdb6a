"""Text that a program makes, between two marks in a file: written there, or compared with what is there."""

import re
import sys
from pathlib import Path

ROOT = Path(__file__).resolve().parent.parent


class Part:
    """Lines of a file between `made by MAKER: NAME` and `end of what MAKER makes`, each mark in a comment of its own line."""

    def __init__(self, path, name, lines):
        self.path, self.name, self.lines = path, name, lines

    def put_into(self, text, maker):
        marks = r"(made by %s: %s\b.*\n)(?:.*\n)*?(.*end of what %s makes)" % (maker, self.name, maker)
        made = "".join(line + "\n" for line in self.lines)
        text, count = re.subn(marks, lambda found: found.group(1) + made + found.group(2), text)
        if count != 1:
            sys.exit("%s: %s has %d places marked '%s'" % (maker, self.path, count, self.name))
        return text


def main(maker, parts, faults=()):
    """Writes the parts. With --check it writes nothing, and fails where one is out of step, or where there are faults."""
    wanted = {}
    for part in parts:
        path = ROOT / part.path
        wanted[path] = part.put_into(wanted.get(path) or path.read_text(encoding="utf-8"), maker)
    stale = [path for path, text in wanted.items() if path.read_text(encoding="utf-8") != text]
    if sys.argv[1:] == ["--check"]:
        said = ["%s is not in step; run %s" % (path.relative_to(ROOT), maker) for path in stale] + list(faults)
        for each in said:
            print("%s: %s" % (maker, each))
        return 1 if said else 0
    if sys.argv[1:]:
        sys.exit("usage: %s [--check]" % maker)
    for path in stale:
        path.write_text(wanted[path], encoding="utf-8")
        print("%s: %s is new" % (maker, path.relative_to(ROOT)))
    return 0
