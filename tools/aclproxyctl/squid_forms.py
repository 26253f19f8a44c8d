"""Lines of directives that stop elsewhere, and change nothing by their words: where that is so, and why."""

import os
import re
from typing import Callable, Optional, Sequence

from aclproxyctl.squid_files import Item

RESOLV_CONF = "/etc/resolv.conf"
HOSTS = "/etc/hosts"
# A status, a reset or an address in the place of a page.
OTHER_THAN_PAGE = re.compile(r"(\d{3}:|(https?|ftp)://|TCP_RESET$)", re.IGNORECASE)


class File:
    """What a form is judged by beside its own line: all lines, by directive."""

    def __init__(self, items: Sequence[Item], types_used: set[str]) -> None:
        self.by_name: dict[str, list[Item]] = {}
        for item in items:
            if item.line.words:
                self.by_name.setdefault(item.word(0), []).append(item)
        self.types_used = types_used

    def last(self, name: str) -> Optional[Item]:
        return self.by_name[name][-1] if name in self.by_name else None

    def has_rewriter(self) -> bool:
        return any(name in self.by_name and self.by_name[name][-1].word(1) != "none"
                   for name in ("url_rewrite_program", "redirect_program", "redirector_program"))


Form = Callable[[Item, File], Optional[str]]


def only(action: str, why: str) -> Form:
    """All lines of the directive have this action, and of `allow` the last one is for all."""

    def judge(item: Item, file: File) -> Optional[str]:
        lines = file.by_name[item.word(0)]
        alike = all(other.word(1) == action for other in lines)
        return why if alike and (action == "deny" or lines[-1].word(2) == "all") else None

    return judge


def unless(*words: str, why: str = "it changes nothing in this setting") -> Form:
    """The directive's first word is none of these."""
    return lambda item, file: None if item.word(1) in words else why


def where(*words: str, why: str) -> Form:
    """The directive's first word is one of these."""
    return lambda item, file: why if item.word(1) in words else None


def without_rewriter(item: Item, file: File) -> Optional[str]:
    return None if file.has_rewriter() else "there is no program that rewrites"


def timeout(item: Item, file: File) -> Optional[str]:
    rest = [item.word(place) for place in range(2, len(item.line.words))]
    if any(word.startswith("on_timeout=") and word != "on_timeout=bypass" for word in rest):
        return without_rewriter(item, file)
    return "a program that owes an answer for a minute is stopped here, and the request goes on as it came"


def name_servers(item: Item, file: File) -> Optional[str]:
    """The servers are those of this machine."""
    try:
        with open(RESOLV_CONF, encoding="utf-8", errors="replace") as text:
            here = [words[1] for words in map(str.split, text) if words[:1] == ["nameserver"] and len(words) > 1]
    except OSError:
        here = []
    stated = [other.word(place) for other in file.by_name["dns_nameservers"] for place in range(1, len(other.line.words))]
    return "they are those of /etc/resolv.conf" if stated == here else None


def replaced(access: str) -> Form:
    """No rule takes the field out, so nothing takes its place."""

    def judge(item: Item, file: File) -> Optional[str]:
        names = {other.word(1).lower() for other in file.by_name.get(access, []) + file.by_name.get("header_access", [])}
        return None if names & {item.word(1).lower(), "all", "other"} else "no rule takes this field out, so none takes its place"

    return judge


def rewritten_host(item: Item, file: File) -> Optional[str]:
    return "the Host that goes out is that of the new target" if item.word(1) != "off" else without_rewriter(item, file)


def max_connections(item: Item, file: File) -> Optional[str]:
    return "it states no limit" if item.word(1).startswith("-") else None


def counted(item: Item, file: File) -> Optional[str]:
    return None if item.word(1) == "off" and "maxconn" in file.types_used else "connections are always counted"


def bumped(item: Item, file: File) -> Optional[str]:
    passes = item.word(1) in ("none", "splice", "peek") or (item.word(1) == "deny" and item.word(2) == "all")
    return "TLS passes in tunnels and is not opened" if passes else None


def page(item: Item, file: File) -> Optional[str]:
    return None if OTHER_THAN_PAGE.match(item.word(1)) else "a denial is one line of text, and no page"


NO_LIMIT = "it states no limit"
SAME: dict[str, Form] = {
    "url_rewrite_program": where("none", why="there is no program that rewrites"),
    "redirect_program": where("none", why="there is no program that rewrites"),
    "redirector_program": where("none", why="there is no program that rewrites"),
    "store_id_program": where("none", why="there is no such program"),
    "storeurl_rewrite_program": where("none", why="there is no such program"),
    "location_rewrite_program": where("none", why="there is no such program"),
    "url_rewrite_access": without_rewriter,
    "url_rewrite_extras": without_rewriter,
    "url_rewrite_host_header": rewritten_host,
    "url_rewrite_timeout": timeout,
    "request_header_replace": replaced("request_header_access"),
    "reply_header_replace": replaced("reply_header_access"),
    "header_replace": replaced("request_header_access"),
    "http_upgrade_request_protocols": lambda item, file: "it denies only, as is so here" if item.word(2) == "deny" else None,
    "never_direct": only("deny", "it denies only, as is so here"),
    "dns_nameservers": name_servers,
    "hosts_file": lambda item, file: "it is the machine's own file" if os.path.normpath(item.word(1)) == HOSTS else None,
    "dns_defnames": unless("on"),
    "dns_multicast_local": unless("on"),
    "deny_info": page,
    "follow_x_forwarded_for": only("deny", "it denies only, as is so here"),
    "proxy_protocol_access": only("deny", "it denies only, as is so here"),
    "http_reply_access": only("allow", "it allows everything, as is so here"),
    "http_access2": only("allow", "it allows everything, as is so here"),
    "adapted_http_access": only("allow", "it allows everything, as is so here"),
    "miss_access": only("allow", "it allows everything, as is so here"),
    "reply_body_max_size": where("0", "none", why=NO_LIMIT),
    "request_body_max_size": where("0", "none", why=NO_LIMIT),
    "client_ip_max_connections": max_connections,
    "client_delay_pools": where("0", why="there are no such pools"),
    "ssl_bump": bumped,
    "host_verify_strict": unless("on"),
    "client_db": counted,
    "icap_enable": unless("on"),
    "ecap_enable": unless("on"),
    "wccp_router": where("any_addr", "0.0.0.0", "none", why="it names no router"),
    "wccp2_router": where("any_addr", "0.0.0.0", "none", why="it names no router"),
    "configuration_includes_quoted_values": unless("on"),
}
# What is to be known of such a form.
SAME_WARNED = {"deny_info": "a page of its own is not sent any more to who is denied: the denial names its rule in a line of text"}
