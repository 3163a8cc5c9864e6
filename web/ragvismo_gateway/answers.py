"""Answers of HTTP, and the headers that keep browsers from mixing them with others' pages."""

from __future__ import annotations

from aiohttp import web
from ragvismo_gateway.refusals import Refusal
from ragvismo_gateway.view import compact

HEADERS = {
    "Cache-Control": "no-store",
    "Content-Security-Policy": "default-src 'none'; script-src 'self'; style-src 'self';"
    " img-src data:; connect-src 'self'; base-uri 'none'; form-action 'none';"
    " frame-ancestors 'none'",
    "Cross-Origin-Opener-Policy": "same-origin",
    "Cross-Origin-Resource-Policy": "same-origin",
    "Referrer-Policy": "no-referrer",
    "X-Content-Type-Options": "nosniff",
}


def answered(told: object, status: int = 200) -> web.Response:
    return web.Response(text=compact(told), status=status, content_type="application/json")


def refused(refusal: Refusal) -> web.Response:
    return answered(refusal.answer(), refusal.status)
