"""What a configuration means: docs/CONFIGURATION.md over plain lists, as slow as it is short."""

import ipaddress
import re
from dataclasses import dataclass, field
from functools import lru_cache
from typing import Union

from .words import escape, in_key, percent_decoded

Address = Union[ipaddress.IPv4Address, ipaddress.IPv6Address]


@dataclass(frozen=True)
class Target:
    """A request's method and target, taken apart."""

    method: str
    target: str
    scheme: str
    host: str
    port: int
    path: str


@lru_cache(maxsize=65536)
def read_target(method: str, target: str) -> Target:
    if method == "CONNECT":
        host, _, port = target.rpartition(":")
        return Target(method, target, "", host.strip("[]").lower(), int(port), "")
    scheme, _, rest = target.partition("://")
    scheme = scheme.lower()
    end = min((rest.index(c) for c in "/?" if c in rest), default=len(rest))
    authority, path = rest[:end], rest[end:]
    found = re.fullmatch(r"(\[[^]]*\]|[^:]*)(?::(\d*))?", authority)
    assert found, target
    default = {"http": 80, "https": 443, "ftp": 21}.get(scheme, 0)
    return Target(method, target, scheme, found[1].strip("[]").lower(), int(found[2]) if found[2] else default, path)


@dataclass(frozen=True)
class Acl:
    """A list: its lines, each the values of one line. A class of helpers and its arguments are one line."""

    name: str
    kind: str
    lines: tuple[tuple[str, ...], ...]

    def text(self) -> str:
        return "".join(f"acl {self.name} {self.kind} {' '.join(line)}\n" for line in self.lines)

    @property
    def values(self) -> list[str]:
        return [value for line in self.lines for value in line]


@dataclass(frozen=True)
class HelperClass:
    """Two of these are the same class where their text is the same."""

    name: str
    ttl: int
    negative_ttl: int
    tokens: tuple[str, ...]
    queue: int
    children: int
    concurrency: int
    text: str


@dataclass(frozen=True)
class Rule:
    allow: bool
    terms: tuple[str, ...]

    def text(self) -> str:
        return f"{'allow' if self.allow else 'deny'} {' '.join(self.terms)}\n"


@dataclass(frozen=True)
class Pool:
    """`pairs` has a restore and a maximum for each bucket, or None for no limit."""

    kind: int
    pairs: tuple[tuple[int, int] | None, ...]
    rules: tuple[Rule, ...]


@dataclass(frozen=True)
class FieldRule:
    """A rule of header access: of which side, `request` or `reply`, and of which field, or of `All`."""

    side: str
    name: str
    rule: Rule

    def text(self) -> str:
        return f"{self.side}_header_access {self.name} {self.rule.text()}"


# What goes on whatever rules of fields say.
STAYING = {"host", "content-length", "transfer-encoding", "connection"}


LOOKUP = "dst lookup"  # the class of look-ups


@dataclass(frozen=True)
class LookUps:
    """`dst_lookup on`: how many look-ups are under way at once, and how many further questions wait."""

    children: int
    queue: int

    def text(self) -> str:
        return f"dst_lookup on queue-size={self.queue} children-max={self.children}\n"

    def cls(self) -> HelperClass:
        return HelperClass(LOOKUP, 60, 60, ("%>rd", "%ACL"), self.queue, self.children, 0, self.text())


def looked_up(acl: Acl) -> dict[str, Acl]:
    """The lists that are made of one of type `dst` for look-ups."""
    name = acl.name
    made = [
        Acl("dst literal", "dst", (("all",),)),
        Acl(f"{name} literal", "dst", acl.lines),
        Acl(f"{name} lookup", "external", ((LOOKUP,),)),
        Acl(f"{name} named", "all-of", (("!dst literal", f"{name} lookup"),)),
        Acl(name, "any-of", ((f"{name} literal", f"{name} named"),)),
    ]
    return {one.name: one for one in made}


@dataclass(frozen=True)
class Rewriter:
    """The program that rewrites. The one of the configuration with which a server began counts for its whole run."""

    program: str
    children: int
    queue: int
    concurrency: int
    startup: int

    def text(self) -> str:
        return (
            f"url_rewrite_program {self.program}\n"
            f"url_rewrite_children {self.children} startup={self.startup} idle=1 concurrency={self.concurrency} queue-size={self.queue}\n"
        )


@dataclass
class Sight:
    """What a check sees."""

    address: str
    port: int
    target: Target
    fields: tuple[tuple[str, str], ...]
    local_seconds: int
    connections: int
    truths: dict[str, bool] = field(default_factory=dict)
    asked: list[tuple[str, str]] = field(default_factory=list)  # class and key of each external term, as the rules were gone through


@dataclass(frozen=True)
class Need:
    acl: str
    cls: str
    key: str


@dataclass(frozen=True)
class Fault:
    acl: str
    cause: str


Bucket = tuple[int, int, Union[int, str]]  # the pool's place, the pair's, and of whom it is: a part of an address, or a tag
HIT, MISS = "hit", "miss"
# Of (class, key): HIT, MISS, or the cause of a fault.
Answers = dict[tuple[str, str], str]


@lru_cache(maxsize=4096)
def in_range(value: str, address: str) -> bool:
    if value == "all":
        return True
    here = ipaddress.ip_address(address)
    if "/" in value:
        net = ipaddress.ip_network(value, strict=False)
        return here.version == net.version and here in net
    first, _, last = value.partition("-")
    low, high = ipaddress.ip_address(first), ipaddress.ip_address(last or first)
    return here.version == low.version and int(low) <= int(here) <= int(high)


def is_literal(host: str) -> bool:
    try:
        ipaddress.ip_address(host)
        return True
    except ValueError:
        return False


def in_domain(value: str, host: str) -> bool:
    value = value.lower()
    if value.startswith("."):
        return host == value[1:] or host.endswith(value)
    return host == value


DAYS = {"S": [0], "M": [1], "T": [2], "W": [3], "H": [4], "F": [5], "A": [6], "D": [1, 2, 3, 4, 5]}


def in_hours(line: tuple[str, ...], local_seconds: int) -> bool:
    day = (local_seconds // 86400 + 4) % 7
    minute = local_seconds % 86400 // 60
    words = list(line)
    days = set(range(7))
    if words and words[0].isalpha():
        days = {d for letter in words.pop(0) for d in DAYS[letter]}
    if not words:
        return day in days
    first, last = (int(w.split(":")[0]) * 60 + int(w.split(":")[1]) for w in words[0].split("-"))
    return day in days and first <= minute <= last


def finds(line: tuple[str, ...], target: str) -> bool:
    text = percent_decoded(target.encode("ascii"))
    flags = 0
    for word in line:
        if word in ("-i", "+i"):
            flags = re.IGNORECASE if word == "-i" else 0
        elif re.search(word.encode("ascii"), text, flags):
            return True
    return False


PREDEFINED = {
    "all": Acl("all", "src", (("all",),)),
    "localhost": Acl("localhost", "src", (("127.0.0.1/32", "::1"),)),
    "CONNECT": Acl("CONNECT", "method", (("CONNECT",),)),
    "manager": Acl("manager", "url_regex", (("-i", "^cache_object://", "+i", "^[^:]+://[^/]+/squid-internal-mgr/"),)),
    "to_localhost": Acl("to_localhost", "dst", (("127.0.0.0/8", "0.0.0.0/32", "::1", "::"),)),
    "to_linklocal": Acl("to_linklocal", "dst", (("169.254.0.0/16", "fe80::/10"),)),
}


class Configuration:
    def __init__(
        self,
        acls: list[Acl],
        classes: list[HelperClass],
        rules: list[Rule],
        pools: list[Pool],
        initial: int = 50,
        field_rules: list[FieldRule] | None = None,
        rewriter: Rewriter | None = None,
        lookups: LookUps | None = None,
        extra: str = "",
    ) -> None:
        self.acls = PREDEFINED | {acl.name: acl for acl in acls}
        self.classes = {cls.name: cls for cls in classes}
        self.rules = rules
        self.pools = pools
        self.initial = initial
        self.field_rules = field_rules or []
        self.rewriter = rewriter
        lines = [lookups.text()] if lookups else []
        if lookups:
            self.classes[LOOKUP] = lookups.cls()
            for acl in [one for one in self.acls.values() if one.kind == "dst"]:
                self.acls |= looked_up(acl)
        lines += [cls.text for cls in classes]
        lines += [acl.text() for acl in acls]
        lines += ["http_access " + rule.text() for rule in rules]
        lines += [one.text() for one in self.field_rules]
        lines += [rewriter.text()] if rewriter else []
        if pools:
            lines.append(f"delay_pools {len(pools)}\ndelay_initial_bucket_level {initial}\n")
        for number, pool in enumerate(pools, 1):
            pairs = " ".join("none" if pair is None else f"{pair[0]}/{pair[1]}" for pair in pool.pairs)
            lines.append(f"delay_class {number} {pool.kind}\ndelay_parameters {number} {pairs}\n")
            lines += [f"delay_access {number} {rule.text()}" for rule in pool.rules]
        self.text = "".join(lines) + extra

    def leaf(self, acl: Acl, sight: Sight) -> bool:
        known = sight.truths.get(acl.name)
        if known is None:
            known = sight.truths[acl.name] = self.look(acl, sight)
        return known

    def look(self, acl: Acl, sight: Sight) -> bool:
        target, values = sight.target, acl.values
        match acl.kind:
            case "src":
                return any(in_range(value, sight.address) for value in values)
            case "dst":
                return is_literal(target.host) and any(in_range(value, target.host) for value in values)
            case "dstdomain":
                return any(in_domain(value, target.host) for value in values)
            case "port":
                for value in values:
                    first, _, last = value.partition("-")
                    if int(first) <= target.port <= int(last or first):
                        return True
                return False
            case "method":
                return target.method in values
            case "proto":
                return target.method != "CONNECT" and target.scheme in [value.lower() for value in values]
            case "time":
                return any(in_hours(line, sight.local_seconds) for line in acl.lines)
            case "url_regex":
                return any(finds(line, target.target) for line in acl.lines)
            case "maxconn":
                return any(sight.connections > int(value) for value in values)
        raise AssertionError(acl.kind)

    def term(self, term: str, sight: Sight, answers: Answers) -> bool | Need | Fault:
        negated, name = term.startswith("!"), term.lstrip("!")
        acl = self.acls[name]
        got: bool | Need | Fault
        if acl.kind == "external":
            need = Need(name, acl.values[0], self.key(acl, sight))
            sight.asked.append((need.cls, need.key))
            answer = answers.get((need.cls, need.key))
            got = need if answer is None else answer == HIT if answer in (HIT, MISS) else Fault(name, answer)
        elif acl.kind == "any-of":
            got = False
            for member in acl.values:
                got = self.term(member, sight, answers)
                if got is not False:
                    break
        elif acl.kind == "all-of":
            got = False
            for line in acl.lines:
                got = self.all_of(line, sight, answers)
                if got is not False:
                    break
        else:
            got = self.leaf(acl, sight)
        return got != negated if isinstance(got, bool) else got

    def all_of(self, terms: tuple[str, ...], sight: Sight, answers: Answers) -> bool | Need | Fault:
        for term in terms:
            got = self.term(term, sight, answers)
            if got is not True:
                return got
        return True

    def judge(self, sight: Sight, answers: Answers) -> str | Need:
        """The outcome, in the words of a journal, or what has to be asked first."""
        sight.asked.clear()
        for number, rule in enumerate(self.rules, 1):
            got = self.all_of(rule.terms, sight, answers)
            if isinstance(got, Need):
                return got
            if isinstance(got, Fault):
                return f"denied fault {number} {escape(got.acl.encode())} {got.cause}"
            if got:
                return f"{'allowed' if rule.allow else 'denied'} rule {number}"
        if not self.rules:
            return "denied empty"
        return "denied default" if self.rules[-1].allow else "allowed default"

    def key(self, acl: Acl, sight: Sight) -> str:
        tokens = self.classes[acl.values[0]].tokens
        if "%DATA" not in tokens:
            tokens += ("%DATA",)
        return " ".join(self.token(token, acl, sight) for token in tokens)

    def token(self, token: str, acl: Acl, sight: Sight) -> str:
        target = sight.target
        text: str | None
        match token:
            case "%>a" | "%SRC":
                text = sight.address
            case "%>p" | "%SRCPORT":
                text = str(sight.port)
            case "%>rm" | "%METHOD":
                text = target.method
            case "%>ru" | "%URI":
                text = target.target
            case "%>rs" | "%PROTO":
                text = target.scheme or None
            case "%>rd" | "%DST":
                text = target.host
            case "%>rP" | "%PORT":
                text = str(target.port)
            case "%>rp" | "%PATH":
                text = target.path or None
            case "%ACL":
                text = acl.name
            case "%DATA":
                return " ".join(in_key(value.encode()) for value in acl.values[1:]) or "-"
            case "%%":
                return "%"
            case _:
                assert token.startswith("%>{"), token
                name = token[3:-1].lower()
                values = [value for key, value in sight.fields if key.lower() == name]
                text = ", ".join(values) if values else None
        return in_key(None if text is None else text.encode("latin-1"))

    def allows(self, rules: list[Rule], sight: Sight) -> bool:
        """What rules without helpers decide: the first that matches, or else the opposite of the last."""
        for rule in rules:
            if self.all_of(rule.terms, sight, {}) is True:
                return rule.allow
        return not rules[-1].allow

    def passes(self, side: str, name: str, sight: Sight) -> bool:
        """Whether a field of this name goes on: one of a request's to its origin, one of a reply's to its client."""
        own = [one.rule for one in self.field_rules if one.side == side and one.name.lower() == name.lower()]
        rules = own or [one.rule for one in self.field_rules if one.side == side and one.name == "All"]
        return name.lower() in STAYING or not rules or self.allows(rules, sight)

    def pool_of(self, sight: Sight) -> int | None:
        """The place of the pool that takes the client, from 0."""
        for place, pool in enumerate(self.pools):
            if ":" in sight.address and pool.kind in (2, 3):
                continue
            if pool.rules and self.allows(list(pool.rules), sight):
                return place
        return None

    def buckets(self, place: int, address: str, tag: str | None) -> list[tuple[Bucket, int, int]]:
        """The buckets of a request in a pool: what names each, how many bytes it gains in a second, and how many it holds."""
        pool = self.pools[place]
        hosts: list[int | str] = [0]
        if pool.kind == 5:
            hosts = [] if tag is None else [tag]
        elif pool.kind > 1:
            third, fourth = (int(part) for part in address.split(".")[2:])
            hosts = [0, fourth] if pool.kind == 2 else [0, third, third * 256 + fourth]
        return [
            ((place, at, host), pair[0], pair[1])
            for at, (host, pair) in enumerate(zip(hosts, pool.pairs))
            if pair is not None
        ]
