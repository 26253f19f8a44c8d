"""Pages of the manual: they are in order, and name each option."""

import argparse
import shutil
import subprocess
import unittest

from aclproxyctl import errors
from aclproxyctl.cli import parser
from aclproxyctl.words import FORMS, TYPES
from tests.common import TOP

MAN = TOP / "docs" / "man"
PAGES = [MAN / "aclproxy.1", MAN / "aclproxy-domains.1", MAN / "aclproxyctl.1", MAN / "aclproxy.conf.5"]


class Pages(unittest.TestCase):
    @unittest.skipUnless(shutil.which("mandoc"), "there is no mandoc")
    def test_lint(self) -> None:
        linted = subprocess.run(["mandoc", "-T", "lint", *map(str, PAGES)], capture_output=True, text=True)
        # Whether this machine's index of pages is up to date is not about these.
        said = [line for line in (linted.stdout + linted.stderr).splitlines() if "outdated mandoc.db" not in line and "referenced manual not found" not in line]
        self.assertEqual(said, [])

    def test_options(self) -> None:
        page = (MAN / "aclproxyctl.1").read_text()
        top = parser()
        (commands,) = [action for action in top._actions if isinstance(action, argparse._SubParsersAction)]
        for name, command in commands.choices.items():
            self.assertIn(f".Cm {name}\n", page)
            self.assertIn(f".Ss {name}\n", page)
            for action in command._actions:
                for option in action.option_strings:
                    if option.startswith("--") and option not in ("--help", "--output"):
                        self.assertIn(f"Fl Fl {option[2:]}", page, name)

    def test_statuses(self) -> None:
        page = (MAN / "aclproxyctl.1").read_text()
        for name in dir(errors):
            value = getattr(errors, name)
            if name.isupper() and isinstance(value, int):
                self.assertIn(f".It {value}\n", page, name)

    def test_types(self) -> None:
        page = (MAN / "aclproxy.conf.5").read_text()
        for name in TYPES:
            self.assertIn(f".It Cm {name}\n", page)
        self.assertTrue(all(form.startswith(name) for name, form in FORMS.items()))
