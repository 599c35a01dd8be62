"""The tests of mmquery: `python3 -m unittest discover -s query/tests -t .`. Those of the pages and
of all code are in `tests/repository`.

The program is that of the variable MMDEPEND, or else the one beside the folder `query`. Where there
is none, what needs it is skipped.
"""
