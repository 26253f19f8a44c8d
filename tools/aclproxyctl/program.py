"""The program aclproxy: where it is, and what it answers."""

import os
import shutil
import subprocess
from dataclasses import dataclass
from pathlib import Path
from typing import Optional, Sequence

from aclproxyctl.errors import INTERNAL, NEEDS, SYSTEM, UserError

VARIABLE = "ACLPROXY"


def find(named: Optional[str]) -> str:
    """The path of the program: the one that is named, that of the environment, one beside the tool, or an installed one."""
    for given, origin in ((named, "--program"), (os.environ.get(VARIABLE), f"the environment variable {VARIABLE}")):
        if given:
            if os.path.isfile(given) and os.access(given, os.X_OK):
                return os.path.abspath(given)
            raise UserError(NEEDS, f"{given}, named by {origin}, is no program that can be run")
    top = Path(__file__).resolve().parent.parent.parent
    shipped, built = top / "dist" / "aclproxy-x86_64-linux", top / "crates" / "sq_main" / "out" / "sq_main"
    for path in (shipped, built, Path("/usr/bin/aclproxy")):
        if path.is_file() and os.access(path, os.X_OK):
            return str(path)
    installed = shutil.which("aclproxy")
    if installed:
        return installed
    raise UserError(NEEDS, f"the program aclproxy is not found; name it by --program PATH or in the variable {VARIABLE}")


@dataclass(frozen=True)
class Answer:
    """What the program wrote, line by line, and its status."""

    status: int
    lines: list[str]


def ask(program: str, words: Sequence[str], seconds: float = 600) -> Answer:
    """Runs the program over files, and has what it wrote."""
    try:
        ran = subprocess.run(
            [program, *words], stdin=subprocess.DEVNULL, stdout=subprocess.PIPE, stderr=subprocess.PIPE, timeout=seconds
        )
    except subprocess.TimeoutExpired:
        raise UserError(INTERNAL, f"{program} {words[0]} has not ended within {seconds:.0f} seconds") from None
    except OSError as fault:
        raise UserError(NEEDS, f"{program} cannot be run: {fault.strerror}") from None
    if ran.returncode < 0:
        raise UserError(INTERNAL, f"{program} {words[0]} was ended by signal {-ran.returncode}")
    if ran.returncode in (1, 5) or ran.returncode > 10:
        said = ran.stderr.decode("utf-8", "replace").strip() or ran.stdout.decode("utf-8", "replace").strip()
        raise UserError(INTERNAL, f"{program} {words[0]} ended with status {ran.returncode}: {said[:300]}")
    if ran.returncode == 10:
        raise UserError(SYSTEM, f"{program} {words[0]} had no memory")
    # Whatever bytes a file has, the program's lines are visible ASCII; `latin-1` keeps others apart.
    return Answer(ran.returncode, ran.stdout.decode("latin-1").splitlines())
