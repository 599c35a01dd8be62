"""How the answer of a command is written: tables, lines and bytes (`output`), formulas cut for a
person (`excerpts`), annotations for a server (`annotations`); or why there is no answer (`errors`).
What reaches a terminal or a log goes through here.

It imports no other package.
"""
