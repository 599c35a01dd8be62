"""Reports on a database: what the program itself says (`of_program`), and what people hand in, of
which nothing is believed alone (`handed_in`). Both become a `ReportContent`. A `Database` has it,
with the citations and marks by which questions are answered.

It imports `answers`, `platform`, `texts`, `citations`, `git` and `program`.
"""
