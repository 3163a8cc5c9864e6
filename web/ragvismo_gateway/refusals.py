"""What the gateway refuses: a reason in one word, the status of HTTP, and a sentence."""

from __future__ import annotations

import enum
from typing import Any


class Reason(enum.Enum):
    """Why something is refused, with its status."""

    FORM = "Form", 400
    LOGIN = "Login", 401
    NOT_ALLOWED = "NotAllowed", 403
    ORIGIN = "Origin", 403
    UNKNOWN = "Unknown", 404
    METHOD = "Method", 405
    KEY_USED = "KeyUsed", 409
    LONG = "Long", 413
    QUOTA = "Quota", 429
    OFTEN = "Often", 429
    FAULT = "Fault", 500
    UNANSWERED = "Unanswered", 503


class Refusal(Exception):
    """Nothing was done of what was asked, or, where it is Unanswered, it may yet be."""

    def __init__(self, reason: Reason, told: str) -> None:
        super().__init__(told)
        self.word, self.status = reason.value
        self.told = told

    def answer(self) -> dict[str, Any]:
        return {"reason": self.word, "reply": "gateway", "told": self.told}
