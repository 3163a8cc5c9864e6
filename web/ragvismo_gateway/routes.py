"""What may be asked of the gateway: one table, from which the server and the page of its interface
are made."""

from __future__ import annotations

from collections.abc import Awaitable, Callable
from typing import Any, NamedTuple

from aiohttp import web

Handler = Callable[[Any, web.Request], Awaitable[web.StreamResponse]]


class Route(NamedTuple):
    """A method and a path, what it does, and what its answers are."""

    method: str
    path: str
    handler: Handler
    says: str
    takes: str
    answers: dict[int, str]
    is_open: bool


class Table:
    """The routes, in the order in which they were written."""

    def __init__(self) -> None:
        self.routes: list[Route] = []

    def add(
        self, method: str, path: str, is_open: bool = False, takes: str = "", **answers: str
    ) -> Callable[[Handler], Handler]:
        """Makes a handler that of a path; its first sentence is what the path does, and `s200`
        and so on tell its answers."""

        def take(handler: Handler) -> Handler:
            says = " ".join((handler.__doc__ or "").split())
            told = {int(status[1:]): said for status, said in answers.items()}
            self.routes.append(Route(method, path, handler, says, takes, told, is_open))
            return handler

        return take


REFUSED = {
    "type": "object",
    "required": ["reason", "reply", "told"],
    "properties": {
        "reason": {"type": "string"},
        "reply": {"const": "gateway"},
        "told": {"type": "string"},
    },
}
SECURITY = {
    "login": {"type": "apiKey", "in": "cookie", "name": "ragvismo"},
    "token": {"type": "http", "scheme": "bearer"},
}


def answers_of(route: Route) -> dict[str, Any]:
    told: dict[str, Any] = {
        str(status): {"description": said} for status, said in route.answers.items()
    }
    refused = {"application/json": {"schema": {"$ref": "#/components/schemas/Refused"}}}
    told["default"] = {"description": "refused, and why", "content": refused}
    return told


def kind_of(name: str) -> str:
    return "string" if name in ("side", "option") else "integer"


def operation(route: Route) -> dict[str, Any]:
    names = [part[1:-1] for part in route.path.split("/") if part.startswith("{")]
    given: dict[str, Any] = {"summary": route.says, "responses": answers_of(route)}
    if names:
        given["parameters"] = [
            {"name": name, "in": "path", "required": True, "schema": {"type": kind_of(name)}}
            for name in names
        ]
    if route.takes:
        kind = "text/plain" if route.path == "/lines" else "application/json"
        given["requestBody"] = {"description": route.takes, "content": {kind: {}}}
    if not route.is_open:
        given["security"] = [{"login": []}, {"token": []}]
    return given


def openapi(routes: list[Route]) -> dict[str, Any]:
    """The interface as OpenAPI tells it."""
    paths: dict[str, dict[str, Any]] = {}
    for route in routes:
        paths.setdefault(route.path, {})[route.method.lower()] = operation(route)
    parts = {"schemas": {"Refused": REFUSED}, "securitySchemes": SECURITY}
    info = {"title": "Ragvismo's gateway", "version": "1"}
    return {"openapi": "3.1.0", "info": info, "paths": paths, "components": parts}
