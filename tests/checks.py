"""How a check of a test is made, for the tests that consist of checks."""

import os
import signal
import sys
from typing import Callable, Protocol, TypeVar

from chaos_parts.server import Server


class Bench(Protocol):
    """What the checks of a test share: what is tried now, how much of that was wrong, and the servers that it has begun."""

    what: str
    wrong: int
    servers: list[Server]


B = TypeVar("B", bound=Bench)


def tried(test: str, bench: B, check: Callable[[B], None], folder: str, seconds: int) -> bool:
    """Whether all of a check of this test holds, which is made in a folder of its own and ends within so many seconds."""
    bench.what = check.__name__.replace("_", " ")
    bench.wrong = 0
    os.mkdir(folder)
    os.chdir(folder)
    signal.alarm(seconds)
    try:
        check(bench)
    except Exception as what:  # a check that cannot be made to its end is one that failed
        bench.wrong += 1
        print(f"{test}, {bench.what}: {type(what).__name__}: {what}")
    finally:
        for one in bench.servers:
            one.kill()
        bench.servers.clear()
    sys.stdout.flush()
    return not bench.wrong
