"""Configurations by a seed: each has the same lists and classes, and rules and pools of its own."""

import random
import sys
from pathlib import Path

from .model import Acl, Configuration, FieldRule, HelperClass, LookUps, Pool, Rewriter, Rule

HERE = Path(__file__).resolve().parent


def python_class(name: str, concurrency: int, tokens: str, ttl: int, negative: int, children: int, queue: int, more: str) -> HelperClass:
    text = (
        f"external_acl_type {name} ttl={ttl} negative_ttl={negative} children-max={children} queue-size={queue} "
        f"concurrency={concurrency} {more}{tokens} {sys.executable} -I -S {HERE / 'helper.py'} {name} {concurrency}\n"
    )
    return HelperClass(name, ttl, negative, tuple(tokens.split()), queue, children, concurrency, text)


def classes(rng: random.Random) -> list[HelperClass]:
    ttl = rng.choice([1, 1, 1, 0, 3])
    return [
        python_class("names", 0, "%>rd %>{X-Word} %METHOD", ttl, 2 * ttl, 3, 60, "grace=50 "),
        python_class("channels", 4, "%>{x-word} %ACL %%", 2, 2, 2, 40, "children-startup=1 "),
        python_class("tight", 0, "%SRC %>{X-Word} %DATA", 1, 1, 1, 0, ""),
        python_class("tags", 0, "%>a %>{X-Word}", 1, 1, 3, 40, ""),
        HelperClass(
            "paths", 1, 1, ("%PATH", "%PROTO", "%PORT"), 20, 2, 0, f"external_acl_type paths ttl=1 children-max=2 queue-size=20 %PATH %PROTO %PORT /bin/sh {HERE / 'helper.sh'}\n"
        ),
        HelperClass("nowhere", 1, 1, ("%URI",), 10, 5, 0, "external_acl_type nowhere ttl=1 %URI ./no-such-helper\n"),
    ]


def lists(rng: random.Random, echo_port: int, local_minute: int) -> list[Acl]:
    first = max(0, min(1438, local_minute + rng.randrange(-3, 3)))
    last = min(1440, first + 1 + rng.randrange(3))
    hours = f"{first // 60:02}:{first % 60:02}-{last // 60}:{last % 60:02}"
    guards = [Acl(f"h{n}", "url_regex", ((f"/h{n}/",),)) for n in range(1, 7)]
    return guards + [
        Acl("outside", "dstdomain", ((".deny.example", "Elsewhere.example"),)),
        Acl("refused", "url_regex", (("/never$", "-i", "/DENY/", "^HTTPS?://[^/]*/no/"), ("+i", "/No/"))),
        Acl("odd", "src", (("127.0.0.3", "127.0.0.5-127.0.0.6", "::1"),)),
        Acl("quiet", "src", (("127.0.1.0/24", "127.0.2.0/255.255.255.0"),)),
        Acl("byname", "dstdomain", (("LOCALHOST",),)),
        Acl("byaddress", "dst", (("127.0.0.0/8", "::1"),)),
        Acl("inner", "dst", (("127.1.0.0/16",),)),
        Acl("near", "dst", (("127.0.0.0/29",), ("::1",))),
        Acl("echoes", "port", ((str(echo_port), "1-99"),)),
        Acl("posts", "method", (("POST", "PUT"),)),
        Acl("plain", "proto", (("HTTP",),)),
        Acl("hours", "time", (("SMTWHFA", hours),)),
        Acl("week", "time", (("S",), ("D", "00:00-24:00"), ("A",))),
        Acl("few", "maxconn", ((str(rng.choice([3, 5, 12])),),)),
        Acl("known", "external", (("names",),)),
        Acl("even", "external", (("channels", "a%b", "c"),)),
        Acl("other", "external", (("channels",),)),
        Acl("narrow", "external", (("tight", "x"),)),
        Acl("shelled", "external", (("paths",),)),
        Acl("tagging", "url_regex", (("/tag/",),)),
        Acl("tagged", "external", (("tags",),)),
        Acl("lost", "external", (("nowhere",),)),
        Acl("strange", "all-of", (("posts", "odd", "!byname"), ("echoes", "odd"))),
        Acl("asked", "any-of", (("!h2", "even"), ("shelled",))),
        Acl("both", "all-of", (("known", "!even"),)),
    ]


RULES = [
    "deny h1 !known",
    "deny h2 !even",
    "deny h3 !lost",
    "deny h3 lost",
    "deny h4 !narrow",
    "deny h5 known even",
    "deny h5 both",
    "allow h6 shelled",
    "deny h6 !asked",
    "allow h2 other !odd",
    "deny posts odd",
    "deny strange",
    "deny few !quiet",
    "deny hours odd",
    "deny !plain !CONNECT",
    "deny byname h1 !known",
    "deny byaddress h4 narrow",
    "deny !week",
    "deny inner",
    "deny posts inner",
    "allow near h5",
    "deny !near h2 odd",
    "deny h1 h2",
    "allow localhost byname posts",
    "deny manager",
    "deny CONNECT odd",
    "allow to_localhost odd !h1 !h2 !h3 !h4 !h5 !h6",
]


# Rules of fields: which fields, and what may stand behind the name. No list there asks a helper.
REQUEST_FIELDS = ["X-Word", "x-word", "Via", "X-Forwarded-For", "Accept", "Content-Length", "Host", "Connection", "All"]
REPLY_FIELDS = ["X-Kept", "x-kept", "Content-Type", "Via", "X-Hint", "ETag", "Content-Length", "Transfer-Encoding", "Connection", "All"]
FIELD_RULES = [
    "deny all",
    "deny odd",
    "allow odd",
    "deny posts",
    "deny !byname",
    "allow h1",
    "deny h2 !odd",
    "deny hours",
    "deny few",
    "allow !strange",
    "deny refused",
    "deny CONNECT",
]


def field_rules(rng: random.Random) -> list[FieldRule]:
    """Rules of fields. By `X-Id` a request is known at its origin, so that goes on always."""
    out = []
    for side, names in (("request", REQUEST_FIELDS), ("reply", REPLY_FIELDS)):
        for _ in range(rng.choice([0, 2, 4, 8])):
            out.append(FieldRule(side, rng.choice(names), rule_of(rng.choice(FIELD_RULES))))
    return [*out, FieldRule("request", "x-ID", Rule(True, ("all",)))]


def rule_of(line: str) -> Rule:
    words = line.split()
    return Rule(words[0] == "allow", tuple(words[1:]))


ABSENT = "./no-such-rewriter"  # a program that is not there


def rewriter(rng: random.Random, number: int, http: int, nobody: int) -> Rewriter | None:
    """The program that rewrites in a round: of four rounds one has none or one that is not there."""
    children = rng.choice([2, 3, 4])
    concurrency = 4 * (1 - number % 2)
    program = f"{sys.executable} -I -S -B {HERE / 'rewriter.py'} {concurrency} {http} {nobody}"
    if number % 4 == 3:
        if number % 8 == 3:
            return None
        program = ABSENT
    return Rewriter(program, children, rng.choice([0, 2 * children, 5000, 5000]), concurrency, rng.choice([0, 1]))


def pools(rng: random.Random) -> list[Pool]:
    quiet = (Rule(True, ("quiet",)),)
    allowed = rng.choice([quiet, (Rule(False, ("!quiet",)), Rule(False, ("hours",)), Rule(True, ("all",)))])
    restore = rng.choice([30000, 60000])
    pair = (restore, rng.choice([restore // 2, restore, 2 * restore]))
    wide = (2 * pair[0], 2 * pair[1])
    kind = rng.choice([1, 2, 3, 5, 5])
    if kind in (1, 5):
        slow = Pool(kind, (wide if kind == 1 else pair,), allowed)
    elif kind == 2:
        slow = Pool(2, (rng.choice([None, wide]), pair), allowed)
    else:
        slow = Pool(3, (wide, rng.choice([None, pair]), pair), allowed)
    fast = Pool(1, ((40_000_000, 40_000_000),), (Rule(False, ("odd",)), Rule(True, ("byname",))))
    return [slow, fast]


def make(rng: random.Random, echo_port: int, local_minute: int, rewriter: Rewriter | None, has_names: bool) -> Configuration:
    kind = rng.random()
    chosen = rng.sample(RULES, rng.randrange(4, 14))
    last = ["allow all"] if kind < 0.85 else ["deny all"] if kind < 0.9 else ["deny refused"] if kind < 0.95 else []
    lookups = LookUps(rng.choice([4, 16]), rng.choice([4, 64])) if has_names and rng.random() < 0.65 else None
    # `!all` never holds: this rule asks for a tag and decides nothing.
    first = ["deny outside", "deny refused", "deny tagging tagged !all"]
    if lookups and rng.random() < 0.5:
        first.append("deny inner")
    words = [*first, *chosen, *last]
    if kind >= 0.985:
        words = []
    rules = [rule_of(line) for line in words]
    extra = rng.choice(["", "# the end", "cache_mem 8 MB\n", "\n\t# CR LF follow\r\n"])
    with_pools = pools(rng) if rng.random() < 0.7 else []
    all_lists, all_classes, level, fields = lists(rng, echo_port, local_minute), classes(rng), rng.choice([0, 50, 100]), field_rules(rng)
    return Configuration(all_lists, all_classes, rules, with_pools, level, fields, rewriter, lookups, extra)


# What makes a configuration faulty as its last line, and the kind by the table of docs/CONFIGURATION.md.
FAULTY = [
    ("acl bad src x", 8),
    ("cache_peer 10.0.0.1 parent 3128 0", 2),
    ("acl bad port", 3),
    ("http_port 65536", 4),
    ("acl bad ident bob", 5),
    ("acl all port 80", 6),
    ("http_access allow nosuch", 7),
    ("acl bad external nosuch", 9),
    ("external_acl_type names /bin/h", 10),
    ("external_acl_type new cash=1 /bin/h", 11),
    ("external_acl_type new %LOGIN /bin/h", 12),
    ("acl bad url_regex (", 14),
    ("delay_class 65 1", 15),
    ("acl bad time 9:00-8:00", 20),
]


def faulty(rng: random.Random, good: Configuration) -> tuple[str, str]:
    """A text, and what is told of it."""
    line, kind = rng.choice(FAULTY)
    text = good.text if good.text.endswith("\n") else good.text + "\n"
    return f"{text}{line}\nacl worse still\n", f"{text.count(chr(10)) + 1} {kind}"
