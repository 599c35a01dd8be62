"""The text of a database: the line in which the program tells each assertion (`assertions`), and
what stands between the assertions, their comments and headers (`text` and the others). That the
text is right was seen by the program.

It imports `answers`.
"""
