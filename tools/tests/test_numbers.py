"""Numbers in manual pages, documents and the tool's own words: each is that of the code, by the table of cases/numbers."""

import re
import unittest
from pathlib import Path

from aclproxyctl import check, squid_directives, warnings
from aclproxyctl.cli import parser
from tests.common import TOP

TABLE = Path(__file__).resolve().parent / "cases" / "numbers"
CONSTANT = re.compile(r"(?m)^\s*(?:pub(?:\([a-z]+\))? )?const ([A-Z_]+): [a-z0-9]+ = ([0-9_]+|0x[0-9a-f_]+|1 << [0-9]+);")
SECONDS = re.compile(r"(?m)^\s*([a-z_]+): Duration::from_secs\(([0-9_]+)\)")
TOOL = {"WORKERS": warnings.WORKERS, "MOST": check.MOST}


def in_crate(crate: str) -> dict[str, set[int]]:
    """The constants of a crate, and its fields that are numbers of seconds."""
    found: dict[str, set[int]] = {}
    for path in (TOP / "crates" / crate / "src").rglob("*.rt"):
        for pattern in (CONSTANT, SECONDS):
            for name, value in pattern.findall(path.read_text()):
                number = 1 << int(value[5:]) if value.startswith("1 <<") else int(value.replace("_", ""), 0)
                found.setdefault(name, set()).add(number)
    return found


def plain(text: str) -> str:
    """A page's text on one line, as a reader has it."""
    return " ".join(re.sub(r"(?m)^\.[A-Z][a-z]( Fl)* ?", "", text).split())


class Numbers(unittest.TestCase):
    def number(self, source: str) -> int:
        crate, name, *less = source.split(" ")
        found = {TOOL[name]} if crate == "tool" else in_crate(crate).get(name, set())
        self.assertEqual(len(found), 1, f"{source}: it is not one number of the code any more, so cases/numbers has to name another")
        (value,) = found
        return value - 1 if less == ["-", "1"] else value

    def test_table(self) -> None:
        rows = [row for row in TABLE.read_text().splitlines() if row and not row.startswith("#")]
        self.assertGreater(len(rows), 50)
        pages: dict[str, str] = {}
        for row in rows:
            page, source, text = row.split(" | ", 2)
            if page not in pages:
                pages[page] = plain((TOP / page).read_text())
            value = self.number(source)
            # With commas, or without as a command line has it.
            wanted = [" ".join(text.replace("{}", form).split()) for form in (f"{value:,}", str(value))]
            self.assertTrue(any(one in pages[page] for one in wanted), f"{page}: it has not {wanted[0]!r}, as {source} says")

    def test_options_of_helpers(self) -> None:
        """The manual page has the defaults of the table of CONFIGURATION."""
        page = (TOP / "docs" / "CONFIGURATION.md").read_text()
        tables = (it.split("\n\n")[0] for it in page.split("| Option | Default | Range |")[1:])
        table = next(it for it in tables if "`ttl=`" in it).splitlines()[2:]
        defaults = {row.split("|")[1].strip(" `="): row.split("|")[2].strip() for row in table}
        manual = plain((TOP / "docs" / "man" / "aclproxy.conf.5").read_text())
        for name, said in (("ttl", "seconds"), ("grace", "percent"), ("cache", "verdicts")):
            self.assertIn(f"{name} ({defaults[name]} {said})", manual)
        for name in ("children-max", "children-startup"):
            self.assertIn(f"{name} ({defaults[name]})", manual)
        self.assertIn(f"concurrency ({defaults['concurrency']}, no channels)", manual)

    def test_default_of_run(self) -> None:
        self.assertEqual(parser().parse_args(["run", "c"]).workers, warnings.WORKERS)

    def test_statuses(self) -> None:
        """After which statuses the unit is not started again, as OPERATING says."""
        page = plain((TOP / "docs" / "OPERATING.md").read_text())
        listed = re.search(r"\*\*Another start does not mend\*\* ([0-9, and]+):", page)
        unit = re.search(r"(?m)^RestartPreventExitStatus=(.*)$", (TOP / "packaging" / "aclproxy.service").read_text())
        assert listed is not None and unit is not None
        self.assertEqual([int(number) for number in re.findall("[0-9]+", listed[1])], [int(number) for number in unit[1].split()])

    def test_accepted(self) -> None:
        """The page on moving over has each word of --accept, and no other."""
        page = (TOP / "docs" / "SQUID.md").read_text()
        table = page[page.index("| `--accept` | What is lost |") :].split("\n\n")[0].splitlines()[2:]
        listed = sorted(name for row in table for name in re.findall("`([^`]+)`", row.split("|")[1]))
        self.assertEqual(listed, squid_directives.ACCEPTED)

    def test_versions(self) -> None:
        """No page speaks of directives that only some versions read."""
        for path in (TOP / "docs" / "man").iterdir():
            self.assertNotIn("depend on the version", path.read_text())
