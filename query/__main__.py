"""Runs `mmquery` by `python3 -m query`."""

import sys

from query.cli import main

if __name__ == "__main__":
    main(sys.argv[1:])
