"""Proofs as they stand in a text: the numbers in their letters, how long they are and how they are
laid out; and their steps carried out again, to say what is wrong in one that was refused, or what
of a theorem nothing needs.

It imports `answers`, `platform`, `texts`, `citations`, `program` and `reports`.
"""
