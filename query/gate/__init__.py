"""The check of a pull request: what a branch brings (`branch`), what maintainers ask for in
`mmdepend.toml` (`config`), the rules that judge it (`rules`), the `Finding` that each gives, and
how findings are written for people, logs and servers (`forms`).

It imports `answers`, `platform`, `texts`, `citations`, `git`, `program`, `definitions` and
`comparisons`.
"""
