"""`rt ci` without the wrong bodies, which `python3 -m proving bodies` tries over what it proved."""

from proving import keeping, toolchain


def prove(names: list[str]) -> int:
    """Does what `rt ci` does with these names, but tries no edit. Returns the status.

    Each crate and its tests are proved, each test and each program is run, and what was proved is
    kept. The last line is that of `rt ci`: 'N passed, M failed'.
    """
    rt = toolchain.rt()

    def no_edits(_: object) -> tuple[list[str], list[str]]:
        """The edits of a crate that are tried here, and the files that are none."""
        return [], []

    setattr(rt, "edits_of", no_edits)
    print("rt: the wrong bodies are tried afterwards, all of a crate in one check", flush=True)
    if toolchain.keeps():
        return int(rt.main(["ci", *names]))
    keeping.keep_what_is_proved(rt)
    if names:
        print("rt: this toolchain's rt ci takes no names, so it has all crates", flush=True)
    return int(rt.main(["ci"]))
