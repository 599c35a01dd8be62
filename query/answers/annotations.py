"""Texts within commands of GitHub: annotations, which its runner finds in a log."""

from query.answers.errors import quiet, shown


def escaped(text: str, *, is_property: bool = False) -> str:
    """A text within a command of GitHub, by the rules of its runner."""
    text = quiet(shown(text.replace("%", "%25").replace("\r", "%0D").replace("\n", "%0A")))
    return text.replace(":", "%3A").replace(",", "%2C") if is_property else text
