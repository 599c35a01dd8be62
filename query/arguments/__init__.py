"""What a command is given: its words and options (`options`), filters of lists, files of labels,
and the surroundings of one run (`context`), from which it gets databases and to which it gives its
answer.

It imports `answers`, `texts` and `reports`.
"""
