"""Lines of squid.conf, as docs/CONFIGURATION.md has them."""

import unittest

from aclproxyctl.confs import Conf, lines_of, without


def words(source: bytes) -> list[tuple[int, list[bytes]]]:
    return [(line.number, line.words) for line in lines_of(source) if line.words]


class Lines(unittest.TestCase):
    def test_goes_on(self) -> None:
        source = b"acl lan src 10.0.0.0/8 \\\n192.0.2.7\nhttp_access allow lan\n"
        self.assertEqual(
            words(source), [(1, [b"acl", b"lan", b"src", b"10.0.0.0/8", b"192.0.2.7"]), (3, [b"http_access", b"allow", b"lan"])]
        )

    def test_comment_does_not_go_on(self) -> None:
        self.assertEqual(words(b"# a comment \\\nhttp_access deny all\n"), [(2, [b"http_access", b"deny", b"all"])])
        self.assertEqual(
            words(b"acl lan src \\\n# offices \\\n10.0.0.0/8\n"), [(1, [b"acl", b"lan", b"src"]), (3, [b"10.0.0.0/8"])]
        )

    def test_hash_inside_a_word(self) -> None:
        self.assertEqual(words(b"acl a#b port 80 # web\n"), [(1, [b"acl", b"a#b", b"port", b"80"])])

    def test_ends(self) -> None:
        self.assertEqual(words(b"http_port 1\r\n\r\nhttp_port\t2 \\"), [(1, [b"http_port", b"1"]), (3, [b"http_port", b"2"])])
        # A CR that no LF follows is a byte of its word.
        self.assertEqual(words(b"http_port 1\r"), [(1, [b"http_port", b"1\r"])])

    def test_without(self) -> None:
        source = b"acl a src \\\n10.0.0.1\nhttp_access allow a\n"
        conf = Conf(source)
        line = conf.line(1)
        assert line is not None
        self.assertEqual(without(source, [line]), b"#\n#\nhttp_access allow a\n")
        rule = conf.rule(1)
        assert rule is not None
        self.assertEqual((rule.number, rule.shown()), (3, "http_access allow a"))
        self.assertIsNone(conf.rule(2))

    def test_port(self) -> None:
        for source, port in ((b"", "3128"), (b"http_port [::1]:8080 name=a\nhttp_port 1\n", "8080"), (b"# x\nhttp_port 80\n", "80")):
            self.assertEqual(Conf(source).port(), port)
