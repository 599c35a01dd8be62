"""Writes what is made, or compares it: python3 -m tables [--check]

With --check nothing is written: what isn't as it would be made is shown, and ends with status 1.
What can't be read of the sources ends with status 2.
"""

import sys
from difflib import unified_diff

from tables.made import made
from tables.sources import TOP, Unreadable

MOST_LINES = 12  # of what is shown of a file


def main(words: list[str]) -> int:
    """Does what the words say. Returns the status."""
    if words not in ([], ["--check"]):
        print("usage: python3 -m tables [--check]", file=sys.stderr)
        return 2
    try:
        changed = {name: texts for name, texts in made().items() if texts[0] != texts[1]}
    except Unreadable as why:
        print(f"tables: {why}", file=sys.stderr)
        return 2
    for name, (before, after) in changed.items():
        if words:
            print("\n".join(difference(name, before, after)))
        else:
            (TOP / name).write_text(after, "utf-8")
            print(name)
    return 1 if words and changed else 0


def difference(name: str, before: str, after: str) -> list[str]:
    """The first lines of how a file differs from what is made."""
    lines = [*unified_diff(before.splitlines(), after.splitlines(), name, "made", "", "", 1, "")]
    more = len(lines) - MOST_LINES
    return lines[:MOST_LINES] + ([f"... {more} more lines"] if more > 0 else [])


if __name__ == "__main__":
    sys.exit(main(sys.argv[1:]))
