"""Tests of the whole: of the built program, the library, what is packed, and the repository."""
