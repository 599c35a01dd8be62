"""Proves the crates and tries their wrong bodies, by the toolchain's command `rt`.

`python3 -m proving` at the top of the repository says what it can do.
"""
