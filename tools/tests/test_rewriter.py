"""Programs that rewrite, as the documents and the examples have them: no target can break their replies."""

import http.client
import re
import subprocess
import sys

from tests.common import TOP, InFolder, needs_program
from tests.loopback import Service

# Targets that a client may send, and some that only other bytes could make: each has what a shell or a reply takes apart.
TAILS = [
    "plain", 'a"b', "a\\b", "\\", "\\c", "\\\\", '"', '\\"', "%", "%s%n", "%41", "$HOME", "$(id)", "`id`", "*", "?", "[a]", "~", "'", "-n", "-e", "a;b", "a&b", "a|b", "<x>",
    "!", "#", "a=b", "{}", "\u00e9\u4e16", "x" * 5000, '"\\' * 500,
]


def value_of(reply: bytes, key: bytes) -> bytes:
    """The value in quotes of this key, as docs/FORMATS.md reads it."""
    found = re.fullmatch(rb'OK (?:status=\d+ )?' + key + rb'="((?:[^"\\]|\\.)*)"', reply, re.DOTALL)
    assert found is not None, reply
    return re.sub(rb"\\(.)", lambda escape: {b"n": b"\n", b"r": b"\r"}.get(escape[1], escape[1]), found[1], flags=re.DOTALL)


def example() -> str:
    """The program of docs/OPERATING.md, without the columns that make it a block."""
    page = (TOP / "docs" / "OPERATING.md").read_text()
    section = page[page.index("### A program that rewrites") :]
    block = section[section.index("    #!/bin/sh") : section.index("    url_rewrite_program")]
    return "\n".join(line[4:] for line in block.splitlines()) + "\n"


class Example(InFolder):
    def test_shell(self) -> None:
        """Each target of the site comes back whole, behind the other host, and no other question is lost."""
        script = self.file("rewriter", example())
        targets = [f"http://site.example/{tail}" for tail in TAILS]
        questions = b"".join(f"{target} 10.1.2.3/- - GET\n".encode() for target in [*targets, "http://old.example/x", "http://other.example/\\c"])
        questions += b"http://site.example/\xff\x80 10.1.2.3/- - GET\n"
        for shell in ("sh", "bash", "dash"):
            try:
                ran = subprocess.run([shell, script], input=questions, capture_output=True, timeout=60, cwd=self.folder)
            except FileNotFoundError:
                continue
            replies = ran.stdout.split(b"\n")
            self.assertEqual((ran.returncode, ran.stderr, len(replies)), (0, b"", len(targets) + 4), shell)
            for target, reply in zip(targets, replies):
                self.assertEqual(value_of(reply, b"rewrite-url").decode(), target.replace("site.example", "mirror.example"), shell)
            self.assertEqual(replies[len(targets) : -2], [b'OK status=301 url="http://new.example/"', b"ERR"])
            self.assertEqual(value_of(replies[-2], b"rewrite-url"), b"http://mirror.example/\xff\x80")


class Denial(InFolder):
    """examples/denial: clients that ask for a host of the list are sent to the page."""

    SCRIPT = TOP / "examples" / "denial" / "rewriter"

    def test_answers(self) -> None:
        games = self.file("games", ["# games", ".games.example", "Play.example"])
        asked = [
            ("http://www.games.example/", "www.games.example"), ("http://GAMES.example:8080/x?y", "games.example"), ("http://play.example", "play.example"),
            ("http://www.play.example/", None), ("http://mygames.example/", None), ("http://[::1]/", None), ("http://[::1", None), ("ftp://x.games.example/", "x.games.example"),
            *((f"http://www.games.example/{tail}", "www.games.example") for tail in TAILS),
        ]
        questions = "".join(f"{number} {target} 10.1.2.3/- - GET\n" for number, (target, _) in enumerate(asked))
        ran = subprocess.run([sys.executable, str(self.SCRIPT), games, "http://denied.school.example/"], input=questions.encode(), capture_output=True, timeout=60)
        self.assertEqual((ran.returncode, ran.stderr), (0, b""))
        for number, ((target, host), reply) in enumerate(zip(asked, ran.stdout.decode().splitlines(), strict=True)):
            wanted = f'OK status=302 url="http://denied.school.example/?host={host}"' if host else "ERR"
            self.assertEqual(reply, f"{number} {wanted}", target)

    @needs_program
    def test_served(self) -> None:
        """A client of the proxy is sent to the page, by targets with quotes and backslashes, too, and a tunnel is denied."""
        conf = self.file("conf", [
            "acl games dstdomain .games.example", "http_access deny CONNECT games", "http_access allow localhost",
            f"url_rewrite_program {sys.executable} {self.SCRIPT} {TOP}/examples/denial/games http://denied.school.example/",
            "url_rewrite_children 1 startup=1 concurrency=10",
        ])
        with Service(self.folder, conf) as service:
            service.told("READY")
            for path in ("/", '/a"b', "/\\c", "/`id`$x%22"):
                connection = http.client.HTTPConnection("127.0.0.1", service.port, timeout=20)
                connection.putrequest("GET", f"http://www.games.example{path}", skip_host=True)
                connection.putheader("Host", "www.games.example")
                connection.endheaders()
                reply = connection.getresponse()
                self.assertEqual((reply.status, reply.getheader("Location")), (302, "http://denied.school.example/?host=www.games.example"), path)
                connection.close()
            self.assertEqual(service.get("www.games.example:443", "CONNECT")[0], 403)
            service.process.terminate()
            self.assertEqual(service.ended(), 0)
