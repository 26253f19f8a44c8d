"""report: goaccess reads each line of the log."""

import os
import shutil
import unittest
from pathlib import Path
from unittest import mock

from tests.common import InFolder, ctl, data_of
from tests.test_log import JOURNAL


class Report(InFolder):
    @unittest.skipUnless(shutil.which("goaccess"), "there is no goaccess")
    def test_page(self) -> None:
        page = self.folder / "report.html"
        ended = ctl("report", self.file("j", JOURNAL), "-o", str(page))
        self.assertEqual((ended.status, ended.out), (0, f"{page}: 5 requests, 2 of them denied\n"), ended.err)
        self.assertEqual(page.stat().st_mode & 0o777, 0o600)
        data = data_of(page)
        general = data["general"]
        self.assertEqual((general["total_requests"], general["valid_requests"], general["failed_requests"]), (5, 5, 0))
        codes = {code["data"]: code["hits"]["count"] for code in data["status_codes"]["data"]}
        self.assertEqual(codes, {"4xx Client Errors": 2, "Unknown": 3})

    def test_goaccess_is_missing(self) -> None:
        with mock.patch.dict(os.environ, {"PATH": str(self.folder)}):
            self.no_traceback(ctl("report", self.file("j", JOURNAL), "-o", "x"), 69, "apt-get install goaccess")

    @unittest.skipUnless(shutil.which("goaccess"), "there is no goaccess")
    def test_bad_input(self) -> None:
        journal = self.file("j", JOURNAL)
        self.no_traceback(ctl("report", journal, "-o", str(self.folder / "none" / "x.html")), 71, "its folder is not there")
        self.no_traceback(ctl("report", journal, "-o", str(self.folder / "x.html"), "--client", "192.0.2.1"), 1, "no request is chosen")
        self.no_traceback(ctl("report", str(self.folder / "none"), "-o", "x.html"), 66, "there is no such file or folder")
        self.assertFalse(Path("x.html").exists())
