"""The program that rewrites, for tests/chaos.py: rewriter.py CONCURRENCY HTTP NOBODY

What it does with a question is said by words in the target, `rw-DOES.SAYS`: the first says how it answers, or that it does not, and the
second is its answer. It writes each question into the file `rewriter.log`, and each answer before it gives it.
"""

import json
import os
import select
import sys
import time
from pathlib import Path

sys.path.insert(0, str(Path(__file__).resolve().parent.parent))

from chaos_parts.rewrites import MARK, UNINVITED, line_of  # noqa: E402


def main() -> None:
    concurrency, http, nobody = (int(word) for word in sys.argv[1:])
    with open("pids", "a") as pids:
        pids.write(f"{os.getpid()}\n")
    log = os.open("rewriter.log", os.O_WRONLY | os.O_APPEND | os.O_CREAT, 0o600)
    held = b""
    turned: list[str] = []

    def tell(**what: object) -> None:
        os.write(log, (json.dumps({"pid": os.getpid(), "at": time.time()} | what) + "\n").encode())

    def put(*lines: str) -> None:
        """Writes lines by one call, after it has noted them in its file."""
        tell(wrote=lines)
        os.write(1, "".join(line + "\n" for line in lines).encode())

    def end() -> None:
        tell(ends=True)
        sys.exit()

    tell(begins=True)
    while True:
        while b"\n" not in held:
            if turned and not select.select([0], [], [], 0.03)[0]:
                put(*reversed(turned))
                turned = []
                continue
            more = os.read(0, 65536)
            if not more:
                return
            held += more
        line, held = held.split(b"\n", 1)
        text = line.decode("latin-1")
        tell(asked=text)
        front = text.split(" ", 1)[0] + " " if concurrency else ""
        found = MARK.search(text)
        does, says = (found[1], found[2]) if found else ("now", "err")
        answer = front + line_of(says, http, nobody)
        if does == "turn" and concurrency:
            # In another order than that of the questions.
            turned.append(answer)
            if len(turned) > 2:
                put(*reversed(turned))
                turned = []
        elif does == "trickle":
            tell(wrote=[answer])
            for byte in (answer + "\n").encode():
                os.write(1, bytes([byte]))
                time.sleep(0.0005)
        elif does == "twice" and not concurrency:
            put(answer, front + UNINVITED)
        elif does == "after":
            put(answer)
            end()
        elif does == "dies":
            end()
        elif does == "half":
            os.write(1, answer[:-1].encode())
            end()
        elif does == "bad":
            put(front + "it is known")
        elif does == "stray":
            put("77 " + UNINVITED)
        elif does == "long":
            put(front + f'OK url="http://c.example/{"x" * 65536}"')
        elif does == "flood":
            put(*(front + f"no {number}" for number in range(200)))
        elif does == "mute":
            # It says nothing, and lives on for a while.
            time.sleep(0.3)
            end()
        else:
            time.sleep({"late": 0.05, "stall": 0.8}.get(does, 0.0))
            put(answer + ("\r" if does == "cr" else ""))


if __name__ == "__main__":
    try:
        main()
    except (BrokenPipeError, ConnectionError, KeyboardInterrupt):
        pass
