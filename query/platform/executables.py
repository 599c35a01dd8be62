"""Where the commands of other programs are."""

import os
import shutil

from query.answers.errors import NoAnswer


# packages/files/commands.py has the same, since it can't import this; test_code.py compares them.
def located(command: str) -> str | None:
    """Where a command is. A folder of PATH that is relative to the working folder doesn't count,
    since whoever fills that folder could bring a command; nor does the working folder itself, in
    which Windows looks first."""
    name = f"{command}.exe" if os.name == "nt" else command
    for folder in os.environ.get("PATH", os.defpath).split(os.pathsep):
        if os.path.isabs(folder) and (found := shutil.which(os.path.join(folder, name))):
            return found
    return None


def wanted(command: str, lacking: str) -> str:
    """The same. NoAnswer where it is nowhere."""
    found = located(command)
    if found is None:
        raise NoAnswer(lacking)
    return found
