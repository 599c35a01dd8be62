"""Git repositories: which commit a revision names (`repository`), what commits have and what a
merge makes of them (`objects`, `trees`), which attributes change a file (`attributes`), and which
revisions changed it (`history`). A repository may have been made to hurt, so nothing else calls
git.

It imports `answers` and `platform`.
"""
