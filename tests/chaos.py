#!/usr/bin/env python3
"""Chaos on the loopback, with an oracle: tests/chaos.py [--seconds N] [--seed S] [--clients C] [--workers W] [--plain] [--program PROGRAM]

It runs `aclproxy serve` while clients, origins, helpers, a program that rewrites and a name server die, stall, lie and trickle. It kills
and stops helpers from outside, changes their tables and tags, renames the access log, and has the configuration read again each second.
What each request has to come to follows from its own words, the configuration, and what helpers, rewriter and name server said. The
oracle compares each answer of the journal, each client's reply, each request at an origin, each question to a helper and each line of the
access log with that, and `verify` judges the journal. The run writes what it counted. Its status is 0 where nothing contradicts; a run of a
minute or more also fails where something that it has to see never happened. It always ends in time.

The name server needs namespaces (`unshare`). Where the machine gives none, or with --plain, look-ups are left out, which is said. Of more
than a hundred clients each rests between its requests: `--clients 1000 --workers 1024` has a thousand connections open at once. It needs
Python 3.11 and its standard library.
"""

import sys

sys.dont_write_bytecode = True

from chaos_parts.run import main  # noqa: E402

if __name__ == "__main__":
    sys.exit(main())
