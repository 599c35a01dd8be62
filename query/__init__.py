"""`mmquery`: questions on a Metamath database that the program `mmdepend` has verified.

The command line is `cli`. Each package says in its first lines what it knows, and which packages it
imports; docs/ARCHITECTURE.md has them all, the lowest first.
"""
