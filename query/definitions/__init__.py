"""Definitions: whether one adds nothing but a name (`soundness` and what it is made of), which ones
a statement needs, and statements and databases without them.

It imports `answers`, `platform`, `texts`, `citations`, `program`, `reports`, `proofs` and
`formulas`.
"""
