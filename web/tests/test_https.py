"""The gateway with a certificate, and what it does not do without one."""

from __future__ import annotations

import http.client
import json
import select
import socket
import ssl
import subprocess

from tests import WEB, wants
from tests.test_gateway import has_ended
from tests.trading import IS_SKIPPED, SECRET, Trading

if not IS_SKIPPED:
    from ragvismo_gateway.connections import Most


@wants("openssl")
class Secure(Trading):
    @classmethod
    def words(cls, part: str) -> list[object]:
        if part != "gateway":
            return super().words(part)
        files = cls.folder / "certificate", cls.folder / "key"
        form = "-x509", "-newkey", "rsa:2048", "-nodes", "-subj", "/CN=localhost", "-days", "2"
        made = ["openssl", "req", *form, "-out", str(files[0]), "-keyout", str(files[1])]
        subprocess.run(made, check=True, capture_output=True)
        return [*super().words(part), "--certificate", files[0], "--key", files[1]]

    def test_connections_that_do_not_become_secret(self) -> None:
        """They are counted too: the oldest of many ends, and others come in meanwhile."""
        most = Most().of_network + 28
        held = [socket.create_connection(("127.0.0.1", self.port), 60) for _ in range(most)]
        for one in held:
            self.addCleanup(one.close)
        held[-1].sendall(b"GET / HTTP/1.1\r\n\r\n")
        connection = self.connected()
        connection.request("GET", "/")
        self.assertEqual(connection.getresponse().status, 200)
        connection.close()
        # They have ended before, and not because they take too long to become secret.
        ended = [*held[:20], held[-1]]
        self.assertEqual(select.select(ended, [], [], 0)[0], ended)
        self.assertTrue(all(map(has_ended, ended)))

    def connected(self) -> http.client.HTTPSConnection:
        context = ssl.create_default_context(cafile=str(self.folder / "certificate"))
        return http.client.HTTPSConnection("localhost", self.port, timeout=60, context=context)

    def test_a_cookie_is_sent_by_https_alone(self) -> None:
        connection = self.connected()
        said = json.dumps({"name": "ana", "password": SECRET})
        connection.request("POST", "/login", said, {"Origin": f"https://localhost:{self.port}"})
        answer = connection.getresponse()
        self.assertEqual((answer.status, json.loads(answer.read())["name"]), (200, "ana"))
        cookie = answer.headers["Set-Cookie"]
        self.assertTrue(cookie.startswith("__Host-ragvismo="), cookie)
        self.assertIn("Secure", cookie)
        connection.close()

    def test_without_a_certificate_nobody_else_reaches_it(self) -> None:
        for more in (["0.0.0.0:9000"], ["[::]:9000"], ["127.0.0.1:9000", "--key", "none"]):
            words = [str(WEB / "gateway"), str(self.folder / "other"), "--listen", *more]
            ran = subprocess.run(words, capture_output=True, text=True)
            self.assertEqual((ran.returncode, ran.stderr.count("\n")), (2, 1), ran.stderr)
