"""Tests of the repository: that its pages say what is so and their commands are run, that options
are the same in all places, what tools say of all code, and what builds, packs and checks.

`tests/mmquery` runs them after the tests of `mmquery`, from which they take how it is run.
"""
