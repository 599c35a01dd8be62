"""Tries the page in real browsers: `python3 -m tests.browser`, see `__main__.py`."""
