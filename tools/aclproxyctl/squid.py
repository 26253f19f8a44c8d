"""check --squid: a squid.conf of Squid's own in the form of this proxy, or what would change by it."""

import itertools
import os
import re
from typing import Iterable, Optional, TextIO

from aclproxyctl import words
from aclproxyctl.check import all_faults, judge_source, tell_counts
from aclproxyctl.confs import PREDEFINED, Conf, Line
from aclproxyctl.errors import DONE, NO, SYSTEM, USAGE, UserError
from aclproxyctl.posix import Untranslatable, translate
from aclproxyctl.squid_directives import ACCEPTED, TABLE, UNFILTERED, Class, Directive
from aclproxyctl.squid_files import Converted, Item, is_utf8, items_of, values_of_file, write_converted
from aclproxyctl.squid_forms import SAME, SAME_WARNED, File
from aclproxyctl.squid_patterns import of_host, of_path
from aclproxyctl.warnings import GROUPS, of_conf

MOST_LINES = 1_000_000
MOST_FAULTS = 1_000
# Values of a long list are spread over lines of about so many bytes.
LINE_BYTES = 4000
# Types of Squid's that become another type here.
OTHER_TYPES = {"dstdom_regex": "url_regex", "urlpath_regex": "url_regex"}
TYPES = {*words.TYPES, *OTHER_TYPES}
HINTS = {
    "proxy_auth": "there is no login: say who by src lists, or let a helper decide by the client's address (external with %SRC)",
    "proxy_auth_regex": "there is no login: say who by src lists, or let a helper decide by the client's address",
    "ident": "ident is not asked: say who by src lists",
    "ident_regex": "ident is not asked: say who by src lists",
    "srcdomain": "addresses are not looked up for names: say who by src lists",
    "srcdom_regex": "addresses are not looked up for names: say who by src lists",
    "dstdom_regex": "say it by dstdomain lists, or by url_regex over the host's place: -i ^[^:]+://([^/]*\\.)?ads\\. and, for CONNECT, -i ^([^/]*\\.)?ads\\.",
    "urlpath_regex": "say it by url_regex over the whole target, as -i ^[^:]+://[^/]+/.*\\.exe$",
    "browser": "let a helper decide, with %>{User-Agent}",
    "req_header": "let a helper decide, with %>{NAME}",
    "referer_regex": "let a helper decide, with %>{Referer}",
    "req_mime_type": "let a helper decide, with %>{Content-Type}",
    "arp": "addresses of cards are not seen: say who by src lists",
    "eui64": "addresses of cards are not seen: say who by src lists",
    "myport": "there is one port: run a proxy for each set of rules",
    "localport": "there is one port: run a proxy for each set of rules",
    "myportname": "there is one port: run a proxy for each set of rules",
    "localip": "the proxy's own address is not looked at: run a proxy for each set of rules",
    "myip": "the proxy's own address is not looked at: run a proxy for each set of rules",
    "max_user_ip": "there is no login: maxconn counts the connections of an address",
    "rep_header": "replies are not judged",
    "rep_mime_type": "replies are not judged",
    "rep_mime_type_regex": "replies are not judged",
    "http_status": "replies are not judged",
    "dst_as": "networks are not looked up by number: name their blocks in a dst list",
    "src_as": "networks are not looked up by number: name their blocks in a src list",
}
# Directives whose terms decide something that is kept.
RULED = {"http_access": 2, "delay_access": 3, "request_header_access": 3, "reply_header_access": 3}
ALL_OF_BOTH = {b"0/0", b"0.0.0.0/0", b"0.0.0.0/0.0.0.0", b"0.0.0.0-255.255.255.255"}
NEVER = "any-of !all"
# What stands in the place of a list that is stopped at, so that the rules over it can still be judged.
STAND_INS = {
    "src": "src all", "dst": "dst all", "dstdomain": "dstdomain x.invalid", "port": "port 1", "method": "method GET", "proto": "proto http", "time": "time M",
    "url_regex": "url_regex x", "maxconn": "maxconn 1",
}
LOOKUP = "dst_lookup on"
LOOKUP_OPTIONS = " children-max=64 queue-size=4096"
# The lists of type dst that Squid has from the start, their values, and how they are said without look-ups.
LOCAL = ("to_localhost", "to_linklocal")
LOCAL_VALUES = {
    "127.0.0.0/8", "127.0.0.1", "127.0.0.1/32", "127.0.0.1/255.255.255.255", "0.0.0.0", "0.0.0.0/32", "::1", "::1/128", "::", "::/128", "169.254.0.0/16",
    "fe80::/10", "127.0.0.0/255.0.0.0",
}
LOCAL_NAMES = "local-names"
# A word of `accept` that names no directive.
WORDS = {UNFILTERED, LOCAL_NAMES}
# Harmless in a version of the program that does not read them, and kept in one that does.
READ_SOMETIMES = ("server_persistent_connections", "log_mime_hdrs")


class Converter:
    """Goes through a squid.conf line by line."""

    def __init__(self, path: str, knows: "Knows", accepted: Iterable[str] = ()) -> None:
        self.path = path
        self.knows = knows
        self.accepted = set(accepted)
        self.found = Converted()
        self.items = list(itertools.islice(items_of(path, path, 0, self.found), MOST_LINES + 1))
        if len(self.items) > MOST_LINES:
            raise UserError(SYSTEM, f"{path}: it has over {MOST_LINES:,} lines with those that it includes; does a file include itself?")
        self.types: dict[str, tuple[str, Optional[Item]]] = {name.decode(): (kind.decode(), None) for name, kind in PREDEFINED.items()}
        self.lists: dict[str, list[Item]] = {}
        for item in self.items:
            if item.word(0) == "acl" and len(item.line.words) > 2:
                self.types.setdefault(item.word(1), (item.word(2), item))
                self.lists.setdefault(item.word(1), []).append(item)
        self.used = self.reached()
        self.file = File(self.items, {self.types.get(name, ("", None))[0] for name in self.used})
        self.ports = 0
        self.told: set[str] = set()
        dst_used = [name for name in self.used if self.types.get(name, ("", None))[0] == "dst"]
        self.only_local = bool(dst_used) and all(self.is_local(name) for name in dst_used)
        self.by_names = self.only_local and LOCAL_NAMES in self.accepted
        self.looks_up = bool(dst_used) and not self.by_names
        self.fourth = {item.word(1) for item in self.items if item.word(0) == "delay_class" and item.word(2) == "4"}

    def is_local(self, name: str) -> bool:
        """Whether it is a list of the start, with no further values than Squid's own."""
        lines = self.lists.get(name, [])
        return name in LOCAL and all(line.word(place) in LOCAL_VALUES for line in lines for place in range(3, len(line.line.words)))

    def reached(self) -> set[str]:
        """The lists that something which is kept depends on."""
        work: list[str] = []
        for item in self.items:
            first = RULED.get(item.word(0))
            if first is not None:
                work += [item.word(place).lstrip("!") for place in range(first, len(item.line.words))]
        seen: set[str] = set()
        while work:
            name = work.pop()
            if name in seen:
                continue
            seen.add(name)
            if self.types.get(name, ("", None))[0].encode() in GROUPS:
                for item in self.lists.get(name, []):
                    work += [item.word(place).lstrip("!") for place in range(3, len(item.line.words))]
        return seen

    def unknown_in(self, names: list[str]) -> list[tuple[str, str, Optional[Item]]]:
        """The lists of types that are not here among these and among the members of their groups."""
        found = []
        seen: set[str] = set()
        work = list(reversed(names))
        while work:
            name = work.pop().lstrip("!")
            if name in seen or name not in self.types:
                continue
            seen.add(name)
            kind, item = self.types[name]
            if kind not in TYPES:
                found.append((name, kind, item))
            if kind.encode() in GROUPS:
                for line in self.lists.get(name, []):
                    work += [line.word(place) for place in range(3, len(line.line.words))]
        return found

    def convert(self) -> Converted:
        if self.looks_up:
            self.found.note(None, "# Squid looks names of hosts up for its dst lists.")
            self.found.note(None, LOOKUP + (LOOKUP_OPTIONS if self.knows.lookup_options else ""))
        elif self.by_names and "to_localhost" in self.used:
            self.found.note(None, "acl to_localhost_names dstdomain localhost .localhost")
            self.found.note(None, "acl to_localhost_or_named any-of to_localhost to_localhost_names")
        self.fields_of_the_proxy()
        for item in self.items:
            if not item.line.words:
                text = item.line.text.decode("utf-8", "replace").strip()
                self.found.note(item, "".join(c for c in text if c.isprintable() or c == "\t")[:2000])
                continue
            self.one(item)
        unknown = sorted(name for name in self.accepted - set(ACCEPTED) - WORDS if not any(item.word(0) == name for item in self.items))
        if unknown:
            raise UserError(USAGE, f"--accept {unknown[0]}: nothing stops by that name")
        return self.found

    def one(self, item: Item) -> None:
        name = item.word(0)
        row = TABLE.get(name)
        if (row is None or row.what is not Class.HARMLESS) and not is_utf8(item.line.text):
            self.found.stop(item, "the line is not UTF-8", words.KINDS[19].instead)
            return
        special = getattr(self, "on_" + name, None)
        if special is not None:
            special(item)
        elif row is None:
            self.stops(item, Directive(Class.STOPS, f"what `{name}` does is not known to this tool", "take the line out if it does nothing to what is allowed", name))
        elif row.what is Class.STOPS:
            self.stops(item, row)
        elif row.what is Class.HARMLESS:
            self.harmless(item, row)
        else:
            self.keep(item)

    def once(self, item: Item, text: str) -> None:
        """Warns of a text at the first line that it stands for."""
        if text not in self.told:
            self.told.add(text)
            self.found.warn(item, text)

    def harmless(self, item: Item, row: Directive) -> None:
        if item.word(0) in READ_SOMETIMES and self.knows.reads(self.verbatim(item)):
            self.keep(item)
            return
        if row.warning:
            self.once(item, row.warning)
        self.found.leave(item, row.text)

    def stops(self, item: Item, row: Directive) -> bool:
        """Stops at a line, unless it changes nothing by its words or was accepted; whether it stops."""
        name = item.word(0)
        same = SAME[name](item, self.file) if name in SAME else None
        if same is not None:
            if name in SAME_WARNED:
                self.once(item, SAME_WARNED[name])
            self.found.leave(item, same)
            return False
        if row.accept in self.accepted:
            self.once(item, f"accepted: {row.text}")
            self.found.leave(item, f"accepted by --accept {row.accept}: {row.text}")
            return False
        self.found.stop(item, row.text, row.instead.replace("{1}", item.word(1)), row.accept)
        return True

    def on_include(self, item: Item) -> None:
        self.found.leave(item, "the lines of these files follow")

    def verbatim(self, item: Item) -> str:
        return re.sub(rb"[ \t]+", b" ", item.line.text).strip().decode("utf-8", "replace")

    # Rules.

    def ruled(self, item: Item) -> None:
        """A rule stays; each list of it that is not here is a stop."""
        first = RULED[item.word(0)]
        unknown = self.unknown_in([item.word(place) for place in range(first, len(item.line.words))])
        for name, kind, stated in unknown:
            where = f" ({stated.where()})" if stated is not None else ""
            self.found.stop(item, f"its list {name}{where} is of type {kind}, which is not here", HINTS.get(kind, "say it by the types " + ", ".join(words.TYPES)))
        text = self.verbatim(item)
        if self.by_names:
            text = re.sub(r"(?<= )(!?to_localhost)(?= |$)", r"\1_or_named", text)
        if unknown:
            self.found.stand_in(item, text)
        else:
            self.found.keep(item, text)

    on_http_access = on_delay_access = on_request_header_access = on_reply_header_access = ruled

    def keep(self, item: Item) -> None:
        self.found.keep(item, self.verbatim(item))

    def on_delay_class(self, item: Item) -> None:
        if item.word(2) == "4":
            self.found.stop(item, "a delay pool of class 4 is not here, and its limits would be lost", "use the classes 1 to 3 or 5")
            self.found.stand_in(item, f"delay_class {item.word(1)} 1")
        else:
            self.keep(item)

    def on_delay_parameters(self, item: Item) -> None:
        if item.word(1) in self.fourth:
            self.found.stand_in(item, f"delay_parameters {item.word(1)} none")
        else:
            self.keep(item)

    # Fields that the proxy writes itself.

    def fields_of_the_proxy(self) -> None:
        """Rules that take out X-Forwarded-For and Via, in front of all others of these names."""
        forwarded, via = self.file.last("forwarded_for"), self.file.last("via")
        if forwarded is not None and forwarded.word(1) in ("off", "delete", "transparent"):
            self.found.keep(forwarded, f"# [{forwarded.where()}] {forwarded.line.shown(400)}", "request_header_access X-Forwarded-For deny all")
        if via is not None and via.word(1) == "off":
            self.found.keep(via, f"# [{via.where()}] {via.line.shown(400)}", "request_header_access Via deny all", "reply_header_access Via deny all")

    def on_forwarded_for(self, item: Item) -> None:
        value = item.word(1)
        if item is not self.file.last("forwarded_for"):
            self.found.leave(item, "the last line of this name counts")
        elif value == "on":
            self.found.leave(item, "it is so here: the client's address is put behind what the client sent")
        elif value in ("off", "delete", "transparent"):
            if value == "off":
                self.found.warn(item, "no X-Forwarded-For goes out, where Squid sends `unknown` behind what the client sent")
            elif value == "transparent":
                self.found.warn(item, "no X-Forwarded-For goes out, not even one that the client sent, which Squid passes")
            self.found.leave(item, "request_header_access X-Forwarded-For deny all stands for it, at the top")
        else:
            self.stops(item, Directive(Class.STOPS, "here the client's address is put behind what the client sent, and Squid puts it in the place of that",
                                       "forwarded_for delete, if no address need be sent", "forwarded_for"))

    def on_via(self, item: Item) -> None:
        if item is not self.file.last("via"):
            self.found.leave(item, "the last line of this name counts")
        elif item.word(1) == "off":
            self.found.warn(item, "no Via goes out, not even one of another proxy, which Squid passes")
            self.found.leave(item, "request_header_access and reply_header_access Via deny all stand for it, at the top")
        else:
            self.found.leave(item, "it is so here")

    # Rewriting.

    def on_url_rewrite_program(self, item: Item) -> None:
        command = item.line.shown(LINE_BYTES).split()
        row = TABLE[item.word(0)]
        if item.word(1) != "none" and row.accept in self.accepted:
            if not self.is_quoted(item, command):
                self.once(item, f"accepted: {row.text}")
                self.once(item, "it is asked `URL ADDRESS/- - METHOD`, without the further words of url_rewrite_extras")
                self.found.keep(item, " ".join(["url_rewrite_program", *command[1:]]))
        elif self.stops(item, row) and not any(word.startswith(('"', "'")) for word in command):
            self.found.stand_in(item, " ".join(["url_rewrite_program", *command[1:]]))

    on_redirect_program = on_redirector_program = on_url_rewrite_program

    def on_url_rewrite_children(self, item: Item) -> None:
        if self.file.has_rewriter():
            self.keep(item)
        else:
            self.found.leave(item, "there is no program that rewrites")

    # Ports.

    def on_http_port(self, item: Item) -> None:
        for place in range(2, len(item.line.words)):
            mode = item.word(place).split("=")[0]
            if mode in ("intercept", "transparent", "tproxy", "accel", "vhost", "vport", "defaultsite", "ssl-bump", "require-proxy-header"):
                self.found.stop(item, f"`{mode}`: clients name this proxy in their settings, and connect to it plainly", "an http_port without it")
                return
        address, colon, port = item.word(1).rpartition(":")
        self.ports += 1
        if self.ports > 1:
            self.found.warn(item, f"clients that use port {port} are not served: the first http_port is the one")
            self.found.leave(item, "there is one port, that of the first http_port")
            return
        if colon:
            self.found.warn(item, f"port {port} is open at all addresses of the machine, and not at {address} alone, but by run --listen {item.word(1)}: else who may come is what src lists say, or a firewall")
        if colon or len(item.line.words) > 2:
            self.found.keep(item, f"# [{item.where()}: of it the port counts] {item.line.shown(400)}", f"http_port {port}")
        else:
            self.keep(item)

    # Lists and helpers.

    def on_acl(self, item: Item) -> None:
        name, kind = item.word(1), item.word(2)
        if len(item.line.words) < 3:
            self.found.stop(item, "a list has a name, a type and values")
        elif (name, kind, item.word(3)) == ("manager", "proto", "cache_object"):
            self.found.leave(item, "manager is there from the start")
        elif kind not in TYPES:
            # The rules that use it are stopped at.
            self.found.leave(item, "there is no such type" if name in self.used else "there is no such type, and no rule that is kept uses this list")
            if name in self.used:
                self.found.stand_in(item, f"acl {name} any-of all")
        elif name not in self.used and kind in ("external", "any-of", "all-of"):
            # What it names may not be kept.
            self.found.leave(item, "no rule that is kept uses this list")
        else:
            self.acl(item, name, kind)

    def acl(self, item: Item, name: str, kind: str) -> None:
        read = Values(self, item, kind)
        values = read.all()
        here = OTHER_TYPES.get(kind, kind)
        if read.faults:
            if name not in self.used:
                self.found.leave(item, f"no rule that is kept uses this list, and {read.faults[0][0]}")
                return
            for why, instead in read.faults:
                self.found.stop(item, why, instead)
            self.found.stand_in(item, f"acl {name} {STAND_INS.get(here) or self.verbatim(item).split(' ', 2)[2]}")
            return
        if not any(value not in ("-i", "+i") for value in values):
            if len(self.lists[name]) == 1:
                self.found.warn(item, "its file has no value: the list never holds")
                self.found.keep(item, f"# no values, as {item.line.shown(300)}", f"acl {name} {NEVER}")
            else:
                self.found.leave(item, "its file has no value")
            return
        if self.by_names and kind in ("any-of", "all-of"):
            values = [re.sub(r"^(!?to_localhost)$", r"\1_or_named", value) for value in values]
        lines: list[str] = []
        if kind in ("all-of", "external", "time", "maxconn", "any-of"):
            lines = [" ".join(["acl", name, kind, *values])]
        else:
            flag = ""
            row: list[str] = []
            size = 0
            for value in values:
                if value in ("-i", "+i"):
                    flag = value
                elif size > LINE_BYTES:
                    lines.append(" ".join(["acl", name, here, *row]))
                    row = [flag] if flag == "-i" else []
                    size = 0
                row.append(value)
                size += len(value) + 1
            lines.append(" ".join(["acl", name, here, *row]))
        if here != kind:
            lines.insert(0, f"# [{item.where()}: of {kind}, as patterns over the whole target] {item.line.shown(400)}")
        self.found.keep(item, *lines)

    def is_quoted(self, item: Item, command: list[str]) -> bool:
        """Whether a word of a program's is quoted, which is a stop."""
        quoted = [word for word in command if word.startswith(('"', "'"))]
        if quoted:
            self.found.stop(item, f"{quoted[0]} is quoted, and quotes have no meaning here", "write the program's words without quotes, or in a script of its own")
        return bool(quoted)

    def on_external_acl_type(self, item: Item) -> None:
        if not any(line.word(3) == item.word(1) for name in self.used for line in self.lists.get(name, []) if line.word(2) == "external"):
            self.found.leave(item, "no rule that is kept asks this helper")
            return
        out = ["external_acl_type", item.word(1)]
        dropped: list[str] = []
        place = 2
        while place < len(item.line.words):
            word = item.word(place)
            if word.startswith("%") or ("=" not in word and word not in ("ipv4", "ipv6")):
                break
            name = word.split("=")[0]
            if word in ("protocol=3.0", "quote=url", "ipv4", "ipv6") or name == "children-idle":
                dropped.append(word)
            else:
                out.append(f"children-max={word.split('=')[1]}" if name == "children" else word)
            place += 1
        while place < len(item.line.words):
            word = item.word(place)
            if word.startswith("%{") and not word.startswith("%{}"):
                word = "%>" + word[1:]
            if not word.startswith("%"):
                out += [item.word(rest) for rest in range(place, len(item.line.words))]
                break
            out.append(word)
            place += 1
        if self.is_quoted(item, out):
            # Faults that it has beside come to light as well.
            self.found.stand_in(item, " ".join(out))
        elif dropped:
            self.found.keep(item, f"# [{item.where()}: {' and '.join(dropped)} changes nothing] {item.line.shown(400)}", " ".join(out))
        else:
            self.found.keep(item, " ".join(out))


class Values:
    """The values of a list's line, those of files in their place, in the form of this proxy."""

    def __init__(self, converter: Converter, item: Item, kind: str) -> None:
        self.converter = converter
        self.item = item
        self.kind = kind
        self.fold = False
        # Why values cannot be kept, and what to write instead.
        self.faults: list[tuple[str, str]] = []
        # Case is off for all patterns over a host: Squid looks at it in small letters.
        self.out: list[str] = ["-i"] if kind == "dstdom_regex" else []

    def all(self) -> list[str]:
        item, kind = self.item, self.kind
        place = 3
        while place < len(item.line.words):
            word = item.word(place)
            place += 1
            if word.startswith(('"', "'")) and kind not in ("any-of", "all-of"):
                while not (len(word) > 1 and word.endswith(word[0])) and place < len(item.line.words):
                    word += " " + item.word(place)
                    place += 1
                self.of_file(word.strip("\"'"))
                if place < len(item.line.words):
                    self.fault(f"Squid passes over what stands behind {word}: put it on a line of its own, if it is to count, or take it out")
                    break
            elif word == "-n" and kind in ("dstdomain", "dstdom_regex", "src", "dst"):
                if kind == "dst" and self.converter.looks_up:
                    self.converter.found.stop(item, "by -n this dst list is not looked up, and others are", "let all of them be looked up, or none")
            elif word == "--" or (word in ("-i", "+i") and kind in ("dstdomain", "proto")):
                pass
            else:
                self.one(word)
        return self.out if any(value not in ("-i", "+i") for value in self.out) else []

    def fault(self, why: str, instead: str = "") -> None:
        if (why, instead) not in self.faults:
            self.faults.append((why, instead))

    def of_file(self, name: str) -> None:
        try:
            # A name that is not from the root is taken as one beside the file that names all others.
            values = values_of_file(os.path.join(os.path.dirname(self.converter.path), name))
        except UserError as fault:
            self.fault(f"its values cannot be read: {fault.text}")
            return
        for value in values:
            self.one(value)

    def one(self, value: str) -> None:
        try:
            kept = self.value(value)
        except Untranslatable as fault:
            self.fault(str(fault), "write it in the syntax of both, or of Rust's regex")
            return
        if " " in kept or "\t" in kept:
            self.fault(f"the value `{kept}` has a blank in it", "a value is one word")
        elif kept:
            self.out.append(kept)

    def value(self, value: str) -> str:
        kind = self.kind
        if not value.isascii() and any(0xDC80 <= ord(character) <= 0xDCFF for character in value):
            raise Untranslatable(f"the value {value.encode('utf-8', 'surrogateescape')!r} is not UTF-8")
        if kind in ("url_regex", *OTHER_TYPES):
            if value in ("-i", "+i"):
                self.fold = value == "-i"
                return "" if kind == "dstdom_regex" else value
            if kind == "url_regex":
                return translate(value)
            try:
                return of_host(value, self.fold) if kind == "dstdom_regex" else of_path(value)
            except Untranslatable as fault:
                self.fault(f"`{value}` of type {kind} has no like among patterns over the whole target: {fault}", HINTS[kind])
                return ""
        if kind in ("src", "dst") and value.encode("utf-8", "replace") in ALL_OF_BOTH:
            return "all"
        if kind in ("src", "dst") and value == "ipv4":
            return "0.0.0.0/0"
        if kind in ("src", "dst") and value == "ipv6":
            raise Untranslatable("`ipv6` is Squid's word for a set of blocks: write those that are meant, as 2000::/3 and fc00::/7, or ::/0 for all")
        return value


class Knows:
    """What the program reads that not all of its versions do, and with an effect."""

    def __init__(self, program: str) -> None:
        self.program = program
        self.lookup_options = self.reads(LOOKUP + LOOKUP_OPTIONS)

    def reads(self, line: str) -> bool:
        judged = judge_source(self.program, line.encode() + b"\n")
        return judged.fault is None and not judged.notices


def follows(converter: Converter, kind: int, line: Optional[Line]) -> bool:
    """Whether a fault of the new text may follow from a line that was stopped at, and so is not in it."""
    if line is None or (line.words and line.words[0].startswith(b"delay_") and kind in (8, 15)):
        return any(stop.item.word(0).startswith("delay_") for stop in converter.found.stops)
    names = [word.lstrip(b"!").decode("utf-8", "replace") for word in line.words[1:]]
    if kind == 7:
        return any(name in converter.types and name.encode() not in PREDEFINED for name in names)
    return kind == 9 and any(item.word(0) == "external_acl_type" and item.word(1) in names for item in converter.items)


def stand_in(line: Line) -> bytes:
    """In the place of a faulty list another one of its name and type, so that the rules over it are judged as well."""
    if line.words[:1] != [b"acl"] or len(line.words) < 3:
        return b"#"
    return b"acl " + line.words[1] + b" " + STAND_INS.get(line.word(2), "any-of all").encode()


def judge_converted(program: str, converter: Converter) -> tuple[Conf, Optional[dict[str, int]]]:
    """Has the program judge the text. What it refuses is a stop at the line that it came from."""
    found = converter.found
    conf = Conf("".join(line + "\n" for line in found.text).encode("utf-8", "replace"))
    judged = judge_source(program, conf.source)
    if judged.fault is None:
        return conf, judged.counts
    faults, more = all_faults(program, conf, judged.fault, MOST_FAULTS, stand_in)
    for fault in faults:
        item = found.origins[fault.number - 1] if 0 < fault.number <= len(found.origins) else None
        item = item or Item(converter.path, Line(0, 0, b"", []))
        kind = words.KINDS.get(fault.kind)
        if fault.follows is None:
            mark = " (which may follow from a line that stops)" if found.stops and follows(converter, fault.kind, fault.conf.line(fault.number)) else ""
            found.stop(item, words.of_fault(fault.conf, fault.number, fault.kind) + mark, kind.instead if kind and not mark else "")
    if more:
        whole = Item(converter.path, Line(0, 0, b"", []))
        found.stop(whole, "there may be more that is refused: the file is not judged again without these lines")
    return conf, None


def tell_stops(out: TextIO, converter: Converter) -> None:
    """Says each stop, in the order of the lines; what to write instead is said once."""
    found = converter.found
    order = {id(item): place for place, item in enumerate(converter.items)}
    told: set[str] = set()
    for stop in sorted(found.stops, key=lambda stop: order.get(id(stop.item), -1)):
        out.write(f"{stop.item.where()}: {stop.why}\n")
        if stop.item.line.words:
            out.write(f"    {stop.item.line.shown()}\n")
        go_on = ""
        if stop.accept == UNFILTERED:
            go_on = f"--accept {stop.accept} keeps the program, which is then asked about http alone"
        elif stop.accept:
            go_on = f"--accept {stop.accept} goes on without it"
        for label, text in (("instead:", stop.instead), ("or:     ", go_on)):
            if text and text not in told:
                told.add(text)
                out.write(f"  {label} {text}\n")
    out.write(f"{converter.path} is not converted: {words.plural(len(found.stops), 'line')} would change what clients may do or what others see; "
              "nothing was written\n")


def tell_lookups(out: TextIO, converter: Converter) -> None:
    """Says what looking names up means, where the new text does so, or what differs where it does not."""
    if converter.by_names:
        out.write("warning: names are not looked up: to_localhost and to_linklocal hold of addresses, and of `localhost` and names below it; another name "
                  "of such an address passes them here, and not in Squid\n")
    elif converter.looks_up and converter.only_local:
        out.write("warning: each name that is asked for is looked up before the request goes on, for to_localhost or to_linklocal alone. --accept local-names "
                  "writes them without look-ups: they then hold of addresses, and of `localhost` and names below it; another name of such an address "
                  "passes them\n")


def convert(out: TextIO, text_out: Optional[TextIO], program: str, path: str, to: Optional[str], offset: Optional[int], accepted: Iterable[str] = ()) -> int:
    """The command. Words go to `out`; the text goes to the file `to`, or to `text_out`."""
    converter = Converter(path, Knows(program), accepted)
    found = converter.convert()
    conf, counts = judge_converted(program, converter) if found.text else (Conf(b""), None)
    if found.stops:
        tell_stops(out, converter)
        return NO
    for item, text in found.warned:
        out.write(f"{item.where()}: warning: {text}\n    {item.line.shown()}\n")
    tell_lookups(out, converter)
    for warning in of_conf(conf, offset, converter.looks_up):
        origin = found.origins[warning.line.number - 1]
        where = origin.where() if origin is not None else path
        out.write(f"{where}: warning: {warning.text}\n    {warning.line.shown()}\n")
    source = write_converted(found, path, to)
    if to is None and text_out is not None:
        text_out.write(source)
    out.write(f"{path} is converted: {words.plural(found.kept, 'line')} kept, {found.left:,} commented out\n")
    if counts is not None:
        tell_counts(out, to or "what was written", counts)
    return DONE
