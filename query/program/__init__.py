"""The program `mmdepend`: the bytes that it gets (`source`, `unpacking`, `handover`), how it is run
within limits (`mmdepend`), and what it says where it refuses them (`refusals`). What it says of a
text that it accepts is read in `reports`.

It imports `answers`, `platform` and `git`.
"""
