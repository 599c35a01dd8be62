"""What breaks a rule of the gate."""

from dataclasses import dataclass


@dataclass(frozen=True)
class Finding:
    """What breaks a rule. `line` and `column` count from 1, and are 0 where there is none; `label`
    and `axiom` may be "". `allow` is the key of `mmdepend.toml` whose list would let it through if
    it had the label; "" where none would."""

    rule: str
    file: str
    line: int
    label: str
    axiom: str
    reason: str
    column: int = 0
    allow: str = ""
