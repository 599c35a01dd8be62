"""The system on which a command runs: calls that some systems lack (`system`), signals, files and
folders for a while, other processes, limits of what a text may cost, the user's secret and the
results that are kept by it. Nothing here knows what Metamath is.

It imports `answers`.
"""
