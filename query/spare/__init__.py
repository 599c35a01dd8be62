"""Proofs that can do with less: the search for statements that stand in for others in a proof, and
the judge of what it found.

It imports `answers`, `platform`, `texts`, `citations`, `program`, `reports`, `proofs`, `formulas`
and `definitions`.
"""
