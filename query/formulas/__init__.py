"""The syntax of a database: the grammar of its syntax axioms (`grammar`), whether each formula has
one tree (`ambiguity`), and the trees; with the questions on formulas that need them.

It imports `answers`, `platform` and `texts`.
"""
