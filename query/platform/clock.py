"""A clock that ends a program after some seconds, where the system has no limits for a process."""

from __future__ import annotations

import threading
from collections.abc import Callable


class Clock:
    """Does something once, after so many seconds."""

    def __init__(self, seconds: int, action: Callable[[], None]) -> None:
        self.action = action
        self.has_rung = False
        self.timer = threading.Timer(seconds, self.ring)
        self.timer.daemon = True
        self.timer.start()

    def ring(self) -> None:
        """Does it."""
        self.has_rung = True
        self.action()

    def stop(self) -> None:
        """Takes it back."""
        self.timer.cancel()
