"""What systemd is told of a tool that it started: that it is ready, and that it is alive."""

from __future__ import annotations

import importlib
import os
import time

from ragvismo_service.statuses import BadUse

# How often it is told that a tool is alive, in seconds, at most.
OFTEN = 1.0
IS_WATCHED = "NOTIFY_SOCKET" in os.environ


class Told:
    """When it was told last that the tool is alive."""

    last = 0.0


def notify(state: str) -> None:
    """Tells systemd a state, where it asked for that; raises BadUse."""
    if IS_WATCHED:
        try:
            daemon = importlib.import_module("systemd.daemon")
        except ImportError:
            raise BadUse("python3-systemd is missing; tools/setup installs it") from None
        daemon.notify(state)


def ready() -> None:
    notify("READY=1")


def alive() -> None:
    """Says that the tool goes on; one that does not say so for too long is started again."""
    if IS_WATCHED and time.monotonic() - Told.last >= OFTEN:
        Told.last = time.monotonic()
        notify("WATCHDOG=1")
