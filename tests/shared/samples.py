"""The first example and Debian's databases, which tests and benchmarks of several folders take."""

from pathlib import Path

FIRST = b"""$c wff |- ( -> ) $.
$v p q $.
wp $f wff p $.
wq $f wff q $.
wi $a wff ( p -> q ) $.
ax-1 $a |- ( p -> ( q -> p ) ) $.
wi2 $p wff ( p -> ( q -> p ) ) $= wp wq wp wi wi $.
"""
"""The database `b.mm` of docs/PROGRAM.md, which is *first-theorem* in docs/TESTING.md."""
FIRST_COUNTS = "mmdepend 1\naxioms 2\ntheorems 1\ncounts\nwi2:1\nend\n"
"""What the program says of it with --report=counts."""

DEBIAN_DATABASES = Path("/usr/share/metamath/databases")
"""Where Debian's package metamath-databases puts its nine databases."""
SMALLER = ("demo0", "miu", "peano", "hol", "ql", "big-unifier")
LARGER = ("nf", "iset", "set")
ALL_DATABASES = ("set", "iset", "nf", "ql", "hol", "peano", "miu", "demo0", "big-unifier")
"""All nine, set.mm first."""
