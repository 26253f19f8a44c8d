"""The program's numbers and short words, in sentences."""

import re
from dataclasses import dataclass
from typing import Optional
from urllib.parse import unquote

from aclproxyctl.confs import PREDEFINED, Conf, Line
from aclproxyctl.squid_directives import TABLE, Class

FORMS = {
    "acl": "acl NAME TYPE VALUE ...",
    "http_access": "http_access allow|deny TERM ...",
    "external_acl_type": "external_acl_type NAME [OPTION=NUMBER ...] [%TOKEN ...] PROGRAM [ARGUMENT ...]",
    "delay_pools": "delay_pools NUMBER, from 0 to 64, once",
    "delay_class": "delay_class POOL CLASS, with CLASS 1 to 3 or 5, once for each pool",
    "delay_access": "delay_access POOL allow|deny TERM ...",
    "delay_parameters": "delay_parameters POOL RESTORE/MAX ..., one pair (or none) for each bucket of its class, behind its delay_class",
    "delay_initial_bucket_level": "delay_initial_bucket_level PERCENT, from 0 to 100",
    "http_port": "http_port PORT, with PORT from 1 to 65535",
    "dst_lookup": "dst_lookup off, or dst_lookup on [children-max=N] [queue-size=M], as the first line of the file with words in it",
    "url_rewrite_program": "url_rewrite_program PROGRAM [ARGUMENT ...], once",
    "url_rewrite_children": "url_rewrite_children MAX [startup=N] [idle=N] [concurrency=N] [queue-size=N], with MAX from 1 to 1024, once",
    "request_header_access": "request_header_access NAME allow|deny TERM ...",
    "reply_header_access": "reply_header_access NAME allow|deny TERM ...",
}

VALUES = {
    "src": "addresses: 10.1.2.3, 10.0.0.0/8, 10.0.0.0/255.0.0.0, 10.0.0.1-10.0.0.9, 2001:db8::/32, or all",
    "dst": "addresses: 192.0.2.7, 192.0.2.0/24, 192.0.2.1-192.0.2.9, 2001:db8::/32, or all",
    "dstdomain": "names of hosts: www.example.com for that one, .example.com for it and all below it",
    "port": "ports N or ranges N-M, from 0 to 65535, without leading zeros",
    "method": "methods of HTTP, with case: GET CONNECT",
    "proto": "schemes: http ftp",
    "time": "days as letters of SMTWHFAD and then hours as h1:m1-h2:m2, each at most once on a line",
    "url_regex": "patterns in the syntax of Rust's regex, with -i and +i between them",
    "maxconn": "one number, up to 2147483647",
    "external": "the NAME of an external_acl_type, then its arguments",
    "any-of": "names of lists, each with or without ! before it",
    "all-of": "names of lists, each with or without ! before it",
}

TYPES = tuple(VALUES)


@dataclass(frozen=True)
class Kind:
    """A kind of fault: its name, what is wrong, what Squid does there, and what to write instead."""

    name: str
    wrong: str
    squid: str
    instead: str


KINDS = {
    1: Kind(
        "LineTooLong",
        "the line, with those that it goes on over, has over 65,536 bytes",
        "Squid has limits of its own on a line",
        "write several lines with the same list name and type: their values add up",
    ),
    2: Kind(
        "UnknownDirective",
        "this directive is not known here",
        "Squid may know it, and then acts on it; here it is refused, lest a rule be lost in silence",
        "take the line out where it changes no verdict; `aclproxyctl check --squid` says so of each directive of Squid",
    ),
    3: Kind(
        "MissingWord",
        "the line ends where a word is needed",
        "Squid refuses such a line too, or passes over it with an error in its log",
        "write the line whole",
    ),
    4: Kind(
        "BadNumber",
        "a number is not decimal digits, or is out of its range",
        "Squid stops at most such numbers, and takes some by the digits that they begin with",
        "write a number of its range",
    ),
    5: Kind(
        "UnknownAclType",
        "this type of list is not known here",
        "Squid has more types; a rule over this one decides there",
        "say the same by the types " + ", ".join(TYPES) + ", or by a helper of your own",
    ),
    6: Kind(
        "TypeClash",
        "a list of this name stands before with another type",
        "Squid ends with an error there",
        "give this list a name of its own",
    ),
    7: Kind(
        "UndefinedAcl",
        "this names a list that does not stand before it",
        "Squid stops at an unknown name too",
        "put its acl line above this one, or correct the name; a member of a group stands before the group's first line",
    ),
    8: Kind(
        "BadValue",
        "a word is outside its form or stands where none is expected, or the line may not stand here, or not twice",
        "Squid may take it: it reads values from quoted files, looks up names of hosts, and warns where this refuses",
        "write it in the form shown",
    ),
    9: Kind(
        "UndefinedClass",
        "the list asks a helper that no external_acl_type before it states",
        "Squid ends with an error there",
        "put the external_acl_type line above this one, or correct the name",
    ),
    10: Kind(
        "DuplicateClass",
        "an external_acl_type of this name stands before",
        "Squid takes the name for the first or ends with an error, by its version",
        "give each helper a name of its own",
    ),
    11: Kind(
        "UnknownOption",
        "an option is not known here",
        "Squid has further options",
        "known are ttl= negative_ttl= grace= cache= children-max= children-startup= children-idle= concurrency= queue-size= "
        "protocol=3.0 quote=url ipv4 ipv6; of url_rewrite_children startup= idle= concurrency= queue-size=; of dst_lookup children-max= queue-size=",
    ),
    12: Kind(
        "UnknownToken",
        "a token of the format is not known here",
        "Squid has further tokens, as those of a login, which this proxy has not",
        "known are %SRC %SRCPORT %METHOD %URI %PROTO %DST %PORT %PATH %>{Header} %ACL %DATA %% and %>a %>p %>rm %>ru %>rs %>rd %>rP %>rp",
    ),
    13: Kind(
        "SlowInFastList",
        "a term here asks a helper (or a look-up of a name), or reaches a list that does, and may not: delay_access, "
        "request_header_access and reply_header_access use lists that are decided at once",
        "Squid takes the line, and such a term then never matches reliably",
        "use lists of the other types here",
    ),
    14: Kind(
        "BadPattern",
        "a pattern is not in the syntax of Rust's regex, or its parts nest more than 250 deep",
        "Squid reads patterns as POSIX extended regular expressions",
        "put \\ before a character that stands for itself; there are no look-around and no back-references",
    ),
    15: Kind(
        "PoolOutOfRange",
        "this pool's number is 0 or above the number of delay_pools stated before",
        "Squid refuses the line",
        "put delay_pools with the number of pools above it",
    ),
    16: Kind(
        "PoolIncomplete",
        "a pool of delay_pools has no delay_class or no delay_parameters at the end of the file",
        "Squid takes such a file, and the pool does nothing or warns",
        "state class and parameters of each pool, or lower delay_pools",
    ),
    17: Kind(
        "TooMany",
        "the file passes a limit: 1,048,576 bytes, 4,096 lists, 10,000 lines of http_access, 10,000 of header access, 64 helpers, "
        "64 pools, 32 tokens of a format",
        "Squid has no such limit, or another",
        "put values together on one list, or let a helper look into a long list, as aclproxy-domains does",
    ),
    18: Kind(
        "TooDeep",
        "groups nest more than 32 deep",
        "Squid takes deeper groups",
        "name lists in one group that were spread over several",
    ),
    19: Kind(
        "NotUtf8",
        "the line is not UTF-8",
        "Squid takes any bytes",
        "convert the file, as by `iconv -f ISO-8859-1 -t UTF-8`",
    ),
    20: Kind(
        "BadTime",
        "a word of a time list is outside its form",
        "Squid reads days and hours by like letters, and several words of each",
        "write days as letters of SMTWHFAD (H is Thursday, A Saturday, D Monday to Friday) and hours as 09:00-17:00; a night is two "
        "lines, 20:00-24:00 and 00:00-06:00",
    ),
}

# What follows from a notice: the line, or a part of it, is read and has no effect.
NOTICES = {
    "access_log": "there is no access log: `aclproxyctl log` makes one from the journal",
    "cache": "there is no cache",
    "cache_dir": "there is no cache, so its folder is not needed",
    "cache_effective_group": "the proxy runs as the group that starts it: set it where it is started",
    "cache_effective_user": "the proxy runs as the user who starts it: set it where it is started",
    "cache_log": "what the proxy says of itself is on its standard output",
    "cache_mem": "there is no cache, so it takes no memory for one",
    "cache_mgr": "no page names the administrator",
    "cache_replacement_policy": "there is no cache",
    "cache_store_log": "there is no cache",
    "coredump_dir": "the proxy does not change its folder",
    "dns_nameservers": "names are looked up as the machine does, by /etc/resolv.conf",
    "error_directory": "a denial is one line of text, and no page from a folder",
    "hosts_file": "names are looked up as the machine does, by /etc/hosts",
    "logfile_rotate": "the journal is cut by `aclproxyctl run`",
    "maximum_object_size": "there is no cache",
    "maximum_object_size_in_memory": "there is no cache",
    "memory_replacement_policy": "there is no cache",
    "minimum_object_size": "there is no cache",
    "pid_filename": "no such file is written: who starts the proxy knows its process",
    "refresh_pattern": "there is no cache, so nothing is refreshed",
    "shutdown_lifetime": "open connections go on to their end; `aclproxyctl run --grace` sets an end to that",
    "strip_query_terms": "the journal has targets whole, with what stands behind `?`",
    "visible_hostname": "no page and no header names this host: Via says `aclproxy`",
}


def plural(count: int, one: str, more: Optional[str] = None) -> str:
    """`1 rule`, `2 rules`."""
    return f"{count:,} {one if count == 1 else more or one + 's'}"


def of_notice(line: Optional[Line], directive: str) -> str:
    """What follows from a notice, by its line's words."""
    if line is None:
        return NOTICES.get(directive, "it has no effect")
    if directive == "http_port":
        address, colon, port = line.word(1).rpartition(":")
        said = []
        if colon:
            said.append(f"the address {address} has no effect: port {port} is open at all addresses of the machine, and who may come "
                        f"is what rules over src lists say; run --listen {line.word(1)} listens there alone")
        if len(line.words) > 2:
            more = " ".join(line.word(i) for i in range(2, len(line.words)))
            said.append(f"the words {more} have no effect")
        return "; ".join(said) or "a part of it has no effect"
    idle = [word.decode("utf-8", "replace") for word in line.words if word.startswith(b"idle=")]
    if directive == "url_rewrite_children" and idle:
        return f"{idle[0]} has no effect: processes are started as questions need them"
    if directive == "external_acl_type":
        without = [
            line.word(i)
            for i in range(2, len(line.words))
            if line.word(i) in ("protocol=3.0", "quote=url", "ipv4", "ipv6") or line.word(i).startswith("children-idle=")
        ]
        return f"{' and '.join(without) or 'an option'} has no effect: helpers are started as questions need them"
    return NOTICES.get(directive, "it is read, and has no effect")


def form_of(line: Line) -> Optional[str]:
    """The form of the line's directive, and for a list that of its values."""
    directive = line.word(0)
    form = FORMS.get(directive)
    if directive == "acl" and line.word(2) in VALUES:
        return f"acl NAME {line.word(2)} VALUE ..., where values are {VALUES[line.word(2)]}"
    return form


def particular(conf: Conf, line: Line, kind: int) -> str:
    """What can be said more closely of a fault by the line's words; empty where nothing."""
    words = [line.word(i) for i in range(len(line.words))]
    if kind == 2:
        return f"`{words[0]}`"
    if kind == 5 and len(words) > 2:
        return f"type `{words[2]}`"
    if kind in (7, 13):
        terms = words[2:] if words[0] == "http_access" else words[3:]
        if kind == 7:
            known = set(PREDEFINED) | {
                other.words[1] for other in conf.lines if other.words[:1] == [b"acl"] and len(other.words) > 1 and other.number < line.number
            }
            missing = [term.lstrip("!") for term in terms if term.lstrip("!").encode() not in known]
            return f"`{missing[0]}`" if missing else ""
        return ""
    if kind == 6 and len(words) > 1:
        for other in conf.lines:
            if other.number < line.number and other.words[:2] == line.words[:2] and len(other.words) > 2:
                return f"`{words[1]}` is of type {other.word(2)} by line {other.number}"
        predefined = PREDEFINED.get(line.words[1])
        return f"`{words[1]}` is there from the start, with type {predefined.decode()}" if predefined else ""
    if kind == 8:
        return of_value(line, words)
    if kind == 9 and len(words) > 3:
        return f"`{words[3]}`"
    if kind == 11:
        known_options = KINDS[11].instead
        for word in words[2:]:
            if word.startswith("%"):
                break
            if "=" in word and word.split("=")[0] + "=" not in known_options:
                return f"`{word}`"
    return ""


def of_value(line: Line, words: list[str]) -> str:
    """The likely cause of a BadValue."""
    if words[0] == "acl" and len(words) > 3:
        quoted = [word for word in words[3:] if word.startswith('"')]
        if quoted:
            return f"values are not read from a file: write those of {quoted[0]} on the line, or have `aclproxyctl check --squid` do so"
        if words[2] in ("src", "dst"):
            names = [word for word in words[3:] if not re.fullmatch(r"[0-9a-fA-F.:/-]+|all", word)]
            if names:
                return f"`{names[0]}` is no address: names of hosts are not looked up here"
            both = [word for word in words[3:] if "-" in word and "/" in word]
            if both:
                return f"`{both[0]}` has a range and a mask: one of them alone is a value"
        if words[2] == "port":
            bad = [word for word in words[3:] if not re.fullmatch(r"(0|[1-9][0-9]*)(-(0|[1-9][0-9]*))?", word)]
            if bad:
                return f"`{bad[0]}` is no port"
    if words[0] == "http_port":
        modes = [word for word in words[2:] if word in ("intercept", "tproxy", "accel", "ssl-bump")]
        if modes:
            return f"`{modes[0]}`: clients name this proxy in their settings; there is no interception, and TLS is not opened"
    if words[0] == "dst_lookup":
        if words[1:2] == ["on"] and len(words) > 2:
            return "behind on stand children-max=N, with N from 1 to 1024, and queue-size=M, with M up to 1000000, each once at most"
        return "it is on or off, and the first line of the file that has words"
    if words[0] in ("http_access",) and len(words) > 1 and words[1] not in ("allow", "deny"):
        return f"`{words[1]}` is neither allow nor deny"
    if words[0] in ("delay_access", "request_header_access", "reply_header_access") and len(words) > 2 and words[2] not in ("allow", "deny"):
        return f"`{words[2]}` is neither allow nor deny"
    if words[0] in ("request_header_access", "reply_header_access") and len(words) > 1:
        if words[1].lower() == "other":
            return "`Other` stands for all names that Squid does not know: name the fields, or `All`"
        return f"`{words[1]}` is no name of a field"
    if words[0] in ("delay_pools", "delay_class", "url_rewrite_program", "url_rewrite_children"):
        return "it may stand once, or has a word too many"
    return ""


CAUSES = {
    "Bh": "it said BH: it could not find out",
    "BadReply": "it wrote a line that is no reply, and was stopped",
    "Stray": "it wrote a reply that nobody asked for, and was stopped",
    "Died": "its program ended",
    "NoHelper": "its program could not be started",
    "QueueFull": "as many questions wait as may, by queue-size",
    "KeyTooLong": "the question has over 8,192 bytes",
}

STATUSES = {
    0: "it was ordered to end",
    1: "its words are no command",
    2: "the configuration is faulty",
    4: "the configuration, or an order, could not be read",
    5: "its standard output could not be written",
    6: "the journal could not be written",
    7: "there is no such configuration",
    9: "the listener failed",
    10: "there was no memory to start, or not all of its threads could be made",
}

KEPT = {
    "missing": "there is no such file",
    "read": "the file could not be read",
    "epochs": "checks of sixteen configurations are still open; try again later",
    "spent": "there is no further number for a configuration: start the proxy anew",
    "memory": "there was no memory",
}


def instead(line: Optional[Line], kind: int) -> str:
    """What to write in the place of a faulty line."""
    row = TABLE.get(line.word(0)) if kind == 2 and line is not None else None
    if row is None:
        return KINDS[kind].instead
    if row.what is Class.HARMLESS:
        return f"take the line out: it changes no verdict ({row.text})"
    if row.what is Class.CONVERTED:
        return f"what `aclproxyctl check --squid` writes in its place: {row.text}"
    return f"take the line out if this may be: {row.text}" + (f"; or {row.instead}" if row.instead else "")


def of_fault(conf: Conf, number: int, kind: int) -> str:
    """A fault of a configuration in a sentence."""
    known = KINDS.get(kind)
    if known is None:
        return f"fault of kind {kind}, which this tool does not know"
    line = conf.line(number)
    more = particular(conf, line, kind) if line is not None and line.words else ""
    if more and kind == 8:
        return more
    return f"{known.wrong}: {more}" if more else known.wrong


def of_outcome(words: list[str]) -> str:
    """An outcome as a journal has it, in words."""
    if words[1] == "rule":
        return f"{words[0]} by rule {words[2]}"
    if words[1] == "default":
        return f"{words[0]} by default: no rule matched, and the last one is the opposite"
    if words[1] == "empty":
        return "denied: there is no rule"
    return f"denied by a fault of the list {unquote(words[3])} in rule {words[2]}: {CAUSES.get(words[4], words[4])}"
