"""The vectors of a test program: its standard input, and the standard output that it must write."""

import argparse
from pathlib import Path


def expected_output(lines):
    """A line a case and a last one with their number, as the programs end."""
    return ("\n".join(lines + ["cases %d" % len(lines)]) + "\n").encode("ascii")


def command(description, folder):
    """The command line that both makers of vectors have; each may add to it."""
    parser = argparse.ArgumentParser(description=description)
    parser.add_argument("folder", nargs="?", type=Path, default=Path(folder),
                        help="where to write stdin and stdout (%(default)s)")
    return parser


def write(folder, asked, expected):
    folder.mkdir(parents=True, exist_ok=True)
    (folder / "stdin").write_bytes(asked)
    (folder / "stdout").write_bytes(expected)
    print("%s: %d bytes in, %s" % (folder, len(asked), expected.decode().splitlines()[-1]))
