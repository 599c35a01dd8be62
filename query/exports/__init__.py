"""A database as files for other programs: tables of SQLite, a picture of its marks, graphs, and a
part, or what is left without one.

It imports `answers`, `platform`, `texts`, `citations`, `program`, `reports` and `proofs`.
"""
