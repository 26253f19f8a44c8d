"""Patterns of Squid in the syntax of Rust's regex."""

import unittest

from aclproxyctl.posix import Untranslatable, translate


class Patterns(unittest.TestCase):
    def test_kept(self) -> None:
        for pattern in ("^http://[a-z]+/", "(ads|track)", "a{2,3}b?", "^https?://", "[[:alpha:]_]", "a*?"):
            self.assertEqual(translate(pattern), pattern)

    def test_any_byte(self) -> None:
        self.assertEqual(translate("a.*b"), "(?s-u)a.*b")
        self.assertEqual(translate("[^/]x"), "(?s-u)[^/]x")
        self.assertEqual(translate("\\.exe$"), "\\.exe$")

    def test_brackets(self) -> None:
        """In brackets of POSIX `\\` stands for itself, and so do `[`, `&` and `~`."""
        self.assertEqual(translate("[\\.]"), "[\\\\.]")
        self.assertEqual(translate("[]a]"), "[\\]a]")
        self.assertEqual(translate("[[a]"), "[\\[a]")
        self.assertEqual(translate("[a-]"), "[a\\-]")
        self.assertEqual(translate("[&&~~]"), "[\\&\\&\\~\\~]")

    def test_literals(self) -> None:
        self.assertEqual(translate("a b"), "a\\x20b")
        self.assertEqual(translate("\\/x\\-y"), "/x\\-y")
        self.assertEqual(translate("a\\{x}"), "a\\{x\\}")
        self.assertEqual(translate("a{,3}"), "a{0,3}")
        self.assertEqual(translate("a&b~#"), "a\\&b\\~\\#")

    def test_refused(self) -> None:
        for pattern in ("\\d+", "(a)\\1", "(?i)a", "*a", "a+?", "a\\", "[a", "[[=a=]]", "a|*", "a{x", "a{"):
            with self.assertRaises(Untranslatable, msg=pattern):
                translate(pattern)
