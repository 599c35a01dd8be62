"""What stands in several places, written from the one in which it is declared.

`python3 -m tables` writes it, and `python3 -m tables --check` says what isn't as it would be
written. What is declared of the program is read of the crates (`sources.py`), and the options of
`mmquery` are those of its parsers (`options.py`). Words that neither has are in `words.py`. The
other modules write, each for one kind of place, and `made.py` says which places these are.
"""
