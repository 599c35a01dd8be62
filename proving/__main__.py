"""python3 -m proving COMMAND, at the top of the repository.

crates [NAME..]    what `rt ci` does, but for the wrong bodies
bodies [NAME..]    the wrong bodies, over what `rt ci` proved
changed REVISION   what the change since a revision reaches
program            puts the program that `rt ci` proved where ./mmdepend looks for it
"""

import argparse
import os
import sys
from pathlib import Path

from proving import toolchain
from proving.bodies import TOP, Choice, try_bodies
from proving.changed import tell
from proving.crates import prove
from proving.program import take


def arguments() -> argparse.Namespace:
    """The words of the command line."""
    parser = argparse.ArgumentParser(
        prog="python3 -m proving", description="Proves the crates, and tries their wrong bodies."
    )
    commands = parser.add_subparsers(dest="command", required=True)
    of_crates = commands.add_parser("crates", help="what rt ci does, but for the wrong bodies")
    of_crates.add_argument("names", nargs="*", metavar="NAME", help="a crate (none: all)")
    of_bodies = commands.add_parser("bodies", help="the wrong bodies, over what rt ci proved")
    of_bodies.add_argument(
        "names", nargs="*", metavar="NAME", help="a crate, or CRATE/EDIT (none: all crates)"
    )
    of_bodies.add_argument("--jobs", type=int, default=1, metavar="N", help="N crates at once")
    of_bodies.add_argument("--anew", action="store_true", help="try also what an earlier run tried")
    of_bodies.add_argument(
        "--keep", type=Path, metavar="FOLDER", help="leave there what the checks say"
    )
    of_change = commands.add_parser("changed", help="what the change since a revision reaches")
    of_change.add_argument("revision", metavar="REVISION")
    commands.add_parser("program", help="has ./mmdepend run the program that rt ci proved")
    return parser.parse_args()


def main() -> int:
    """Does what the command line asks for. Returns the status."""
    words = arguments()
    os.chdir(TOP)
    if words.command == "crates":
        return prove(words.names)
    if words.command == "changed":
        return tell(TOP, words.revision)
    if words.command == "program":
        return take(TOP)
    jobs = max(words.jobs, 1)
    choice = Choice(words.names, jobs, words.anew, words.keep)
    return toolchain.where_disk_lasts(try_bodies, choice)


if __name__ == "__main__":
    sys.exit(main())
