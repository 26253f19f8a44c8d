"""verify: whether a run's journal is the machine's, in words."""

import os
import subprocess
import threading
from dataclasses import dataclass, field
from pathlib import Path
from typing import BinaryIO, Optional, TextIO

from aclproxyctl import words
from aclproxyctl.check import judge, tell_refused
from aclproxyctl.confs import Conf, read
from aclproxyctl.errors import CUT, DONE, INTERNAL, MISSING, NO, NOT_UTF8, REFUSED, USAGE, VERSION, UserError, of_system
from aclproxyctl.journal import BLOCK, KEPT_CONF, open_piece, runs_at, whole_pieces

# The program reads so many bytes of a journal at most.
GREATEST = 1_073_741_824


@dataclass
class Fed:
    """How much of a journal was handed to the program, and what was wrong with its files."""

    bytes: int = 0
    faults: list[UserError] = field(default_factory=list)


def feed(pieces: list[Path], to: BinaryIO, fed: Fed) -> None:
    """Writes the pieces in their order. A reader that has seen enough is no fault."""
    try:
        for piece in pieces:
            with open_piece(piece) as file:
                while True:
                    block = file.read(BLOCK)
                    if not block:
                        break
                    to.write(block)
                    fed.bytes += len(block)
    except UserError as fault:
        fed.faults.append(fault)
    except BrokenPipeError:
        pass
    except OSError as fault:
        fed.faults.append(of_system(fault, str(pieces[0].parent)))
    finally:
        try:
            to.close()
        except OSError:
            pass


def ask_over(program: str, conf: str, pieces: list[Path]) -> tuple[int, list[str], int]:
    """What the program's `verify` writes of these pieces, joined, its status, and how many bytes they have."""
    try:
        process = subprocess.Popen(
            [program, "verify", conf, "/dev/stdin"], stdin=subprocess.PIPE, stdout=subprocess.PIPE, stderr=subprocess.DEVNULL
        )
    except OSError as fault:
        raise UserError(INTERNAL, f"{program} cannot be run: {fault.strerror}") from None
    assert process.stdin is not None and process.stdout is not None
    fed = Fed()
    feeder = threading.Thread(target=feed, args=(pieces, process.stdin, fed))
    feeder.start()
    said = process.stdout.read().decode("latin-1")
    status = process.wait()
    feeder.join()
    process.stdout.close()
    if fed.faults:
        raise fed.faults[0]
    return status, said.splitlines(), fed.bytes


def first_line(pieces: list[Path]) -> bytes:
    for piece in pieces:
        with open_piece(piece) as file:
            line = file.readline(1000)
            if line:
                return line
    return b""


def last_is_cut(pieces: list[Path]) -> bool:
    """Whether the joined text ends without LF."""
    for piece in reversed(pieces):
        with open_piece(piece) as file:
            if piece.suffix in (".gz", ".zst"):
                last = b""
                while True:
                    block = file.read(BLOCK)
                    if not block:
                        break
                    last = block
            else:
                size = file.seek(0, os.SEEK_END)
                file.seek(max(0, size - 1))
                last = file.read(1)
        if last:
            return not last.endswith(b"\n")
    return False


def line_number(pieces: list[Path], number: int) -> tuple[bytes, bool]:
    """A line of the joined text, as far as it is shown, and whether it is the last."""
    count = 0
    found = b""
    for piece in pieces:
        with open_piece(piece) as file:
            while True:
                line = file.readline(BLOCK)
                if not line:
                    break
                if count == number:
                    return found, False
                count += line.endswith(b"\n")
                if count == number or (count == number - 1 and not line.endswith(b"\n")):
                    found = (found + line)[:BLOCK]
    return found, True


def shown(line: bytes, most: int = 300) -> str:
    text = line.rstrip(b"\n").decode("latin-1")
    text = "".join(c if c.isprintable() else repr(c)[1:-1] for c in text)
    return text if len(text) <= most else text[: most - 4] + " ..."


def verify_one(out: TextIO, program: str, name: str, conf: str, pieces: list[Path]) -> int:
    """One journal: says what was found, and has the status for it."""
    first = first_line(pieces)
    if first and not first.startswith(b"journal 2\n") and not first.split(b" ")[1:2] == [b"begin"]:
        raise UserError(VERSION, f"{name}: this is no journal of version 1 or 2: it begins with {shown(first, 60)!r}")
    status, said, size = ask_over(program, conf, pieces)
    last = said[-1].split(" ") if said else []
    joined = f"{words.plural(size, 'byte')} in {words.plural(len(pieces), 'piece')}"
    if status == 0 and last[:1] == ["verified"]:
        out.write(f"{name}: verified: each of its {words.plural(int(last[1]), 'entry', 'entries')} is the machine's ({joined})\n")
        return DONE
    if status == 3 and last[:2] == ["error", "script"]:
        number = int(last[2])
        line, is_last = line_number(pieces, number)
        before = f"the {words.plural(max(0, number - 1), 'line')} before it are the machine's"
        if not line:
            out.write(f"{name}: it has no entry: the proxy had not begun, or the file was emptied\n")
            return NO
        if is_last and last_is_cut(pieces):
            out.write(
                f"{name}: its last line, {number}, has no end: the proxy was killed or its disk was full, or it is still running; {before}\n"
            )
            return CUT
        if size > GREATEST:
            out.write(f"{name}: it has over {GREATEST:,} bytes, which is the most that is read; {before}, up to line {number}\n")
            return NO
        out.write(f"{name}: line {number} is no line of a journal, or no machine could have had its event there; {before}\n")
        out.write(f"    {shown(line)}\n  it was changed, or lines before it are missing, or the configuration is not that of the start\n")
        return NO
    if status == 8 and len(said) == 3:
        number = int(said[0].split(" ")[1])
        out.write(f"{name}: line {number} is not the machine's; the {words.plural(number - 1, 'line')} before it are\n")
        out.write(f"    machine: {shown(said[1].encode('latin-1')[8:])}\n    journal: {shown(said[2].encode('latin-1')[8:])}\n")
        out.write("  it was changed, or the configuration is not that of the start\n")
        return NO
    raise UserError(INTERNAL, f"{program} verify ended with status {status}: {shown(' '.join(last).encode('latin-1'))}")


def verify(out: TextIO, program: str, named: str, conf: Optional[str]) -> int:
    """The command: a run, all runs of a folder, or a journal's file with its configuration."""
    path = Path(named)
    if path.is_dir():
        runs = [(str(run), conf or str(run / KEPT_CONF), whole_pieces(run)) for run in runs_at(named)]
    elif not path.exists():
        raise UserError(MISSING, f"{named}: there is no such file or folder")
    elif conf is None:
        raise UserError(USAGE, f"{named} is a file: name the configuration that the proxy was started with, by --conf")
    else:
        runs = [(named, conf, [path])]
    worst = DONE
    for name, used, pieces in runs:
        source = read(used)
        judged = judge(program, used)
        if judged.fault is not None:
            return NOT_UTF8 if tell_refused(out, program, used, Conf(source), judged.fault) == NOT_UTF8 else REFUSED
        worst = max(worst, verify_one(out, program, name, used, pieces))
    return worst
