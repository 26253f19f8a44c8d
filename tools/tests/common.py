"""What the tests share: the program, folders, and the tool as a process."""

import contextlib
import html
import io
import json
import os
import re
import tempfile
import time
import unittest
from pathlib import Path
from typing import Any, Iterator, Optional, Sequence, Union
from unittest import mock

from aclproxyctl.cli import main

TOOLS = Path(__file__).resolve().parent.parent
TOP = TOOLS.parent
LAUNCHER = TOOLS / "bin" / "aclproxyctl"
PROGRAM = os.environ.get("ACLPROXY", "")
HAS_PROGRAM = bool(PROGRAM) and os.access(PROGRAM, os.X_OK)

# Whether the program writes an access log.
HAS_LOG = HAS_PROGRAM and b"ACLPROXY_ACCESS_LOG" in Path(PROGRAM).read_bytes()

needs_program = unittest.skipUnless(HAS_PROGRAM, "the variable ACLPROXY names no program")
needs_log = unittest.skipUnless(HAS_LOG, "the variable ACLPROXY names no program that writes an access log")


class Ended:
    """What a run of the tool wrote, and its status."""

    def __init__(self, status: int, out: str, err: str) -> None:
        self.status = status
        self.out = out
        self.err = err


def ctl(*words: str, env: Optional[dict[str, str]] = None) -> Ended:
    """Runs the tool in this process, with its words."""
    out, err = io.TextIOWrapper(io.BytesIO(), "utf-8"), io.StringIO()
    with mock.patch.dict(os.environ, {"TZ": "UTC", **(env or {})}):
        time.tzset()
        with contextlib.redirect_stdout(out), contextlib.redirect_stderr(err):
            try:
                status = main(words)
            except SystemExit as end:
                status = int(end.code or 0)
        out.flush()
    time.tzset()
    assert isinstance(out.buffer, io.BytesIO)
    return Ended(status, out.buffer.getvalue().decode("utf-8", "replace"), err.getvalue())


@contextlib.contextmanager
def other_user(folder: Path) -> Iterator[None]:
    """As a user who may not read all files; root is not one, and becomes another for the while."""
    if os.geteuid() != 0:
        yield
        return
    folder.chmod(0o755)
    os.seteuid(65534)
    try:
        yield
    finally:
        os.seteuid(0)


def data_of(page: Path) -> dict[str, Any]:
    """What a page of goaccess shows, which it holds as JSON."""
    found = re.search(r"var json_data=(\{.*?\});?</script>|var json_data=(\{.*\})", page.read_text())
    assert found is not None
    data = json.loads(html.unescape(found[1] or found[2]))
    assert isinstance(data, dict)
    return data


class InFolder(unittest.TestCase):
    """A test with a folder of its own."""

    def setUp(self) -> None:
        self.folder = Path(tempfile.mkdtemp(prefix="aclproxyctl-test-"))

    def tearDown(self) -> None:
        for path in sorted(self.folder.rglob("*"), reverse=True):
            path.rmdir() if path.is_dir() and not path.is_symlink() else path.unlink()
        self.folder.rmdir()

    def file(self, name: str, text: Union[str, bytes, Sequence[str]]) -> str:
        """A file of this text, or of these lines; its path."""
        if isinstance(text, bytes):
            source = text
        elif isinstance(text, str):
            source = text.encode()
        else:
            source = "".join(line + "\n" for line in text).encode()
        path = self.folder / name
        path.parent.mkdir(parents=True, exist_ok=True)
        path.write_bytes(source)
        return str(path)

    def no_traceback(self, ended: Ended, status: int, *parts: str) -> None:
        """One sentence on standard error, with these parts, and this status."""
        self.assertEqual((ended.status, ended.out), (status, ""), ended.err)
        self.assertNotIn("Traceback", ended.err)
        self.assertEqual(ended.err.count("\n"), 1, ended.err)
        for part in parts:
            self.assertIn(part, ended.err)
