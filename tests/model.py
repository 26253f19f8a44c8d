"""A plain model of what goes over the links of `aclproxy serve`, written from docs/FORMATS.md and docs/CONFIGURATION.md.

It takes whole texts, and is for tests: tests/fuzz.py compares a running server with it."""

import ipaddress
import re

HEAD_LIMIT, FIELD_LIMIT, LINE_LIMIT, TRAILER_LIMIT, NUMBER_LIMIT = 65536, 128, 4096, 65536, 2**63
TOKEN = rb"[!#$%&'*+\-.^_`|~0-9A-Za-z]+"
END = rb"\r?\n"
REQUEST_LINE = re.compile(rb"(?:%s)*(%s) ([^\x00-\x20\x7f]+) HTTP/1\.([01])%s" % (END, TOKEN, END))
STATUS_LINE = re.compile(rb"(?:%s)*HTTP/1\.([01]) ([0-9]{3})(?: ([^\x00-\x08\x0a-\x1f\x7f]*))?%s" % (END, END))
FIELD = re.compile(rb"(%s):([^\x00-\x08\x0a-\x1f\x7f]*)%s" % (TOKEN, END))
LAST = re.compile(END)
OWN = {
    "400": (b"400 Bad Request", b"bad request"),
    "431": (b"431 Request Header Fields Too Large", b"head too large"),
    "501": (b"501 Not Implemented", b"not implemented"),
    "502": (b"502 Bad Gateway", b"bad gateway"),
}
CONTINUE = b"HTTP/1.1 100 Continue\r\n\r\n"
ESTABLISHED = b"HTTP/1.1 200 Connection established\r\n\r\n"


# Heads


def head_end(data):
    """The place behind the first empty line that follows a line with bytes; None where there is none."""
    at, seen = 0, False
    while True:
        lf = data.find(b"\n", at)
        if lf < 0:
            return None
        if data[at:lf] not in (b"", b"\r"):
            seen = True
        elif seen:
            return lf + 1
        at = lf + 1


def is_blank(data):
    """Lines without a byte but one CR, each with its LF."""
    return re.fullmatch(rb"(?:\r?\n)*", data) is not None


def read_fields(head, at):
    """The fields from a place on, names and values without white space around them; None where they are none up to the end."""
    fields = []
    while True:
        field = FIELD.match(head, at)
        if not field:
            break
        fields.append((field.group(1), field.group(2).strip(b" \t")))
        at = field.end()
    last = LAST.match(head, at)
    return fields if last and last.end() == len(head) else None


def values(fields, name):
    return [value for n, value in fields if n.lower() == name]


class Request:
    def __init__(self, method, target, minor, fields):
        self.method, self.target, self.minor, self.fields = method, target, minor, fields
        self.parts = target_parts(method, target)

    @property
    def no_body(self):
        return self.method == b"HEAD"


def read_request(head):
    """The request of a whole head, or the status of its refusal."""
    line = REQUEST_LINE.match(head)
    if not line:
        return "400"
    method, target, minor = line.groups()
    try:
        target.decode("utf-8")
    except UnicodeDecodeError:
        return "400"
    fields = read_fields(head, line.end())
    if fields is None:
        return "400"
    if len(fields) > FIELD_LIMIT:
        return "431"
    request = Request(method, target, int(minor), fields)
    return request if request.parts else "400"


# Targets


def host_of(text):
    """The host at the front of an authority in lower case, the address that it spells, and the rest; None where there is none."""
    if text.startswith(b"["):
        inside, bracket, rest = text[1:].partition(b"]")
        if not bracket or b"%" in inside:
            return None
        try:
            return inside.lower(), ipaddress.IPv6Address(inside.decode("ascii")), rest
        except ValueError:
            return None
    name, colon, rest = text.partition(b":")
    if not re.fullmatch(rb"[A-Za-z0-9\-._]+", name):
        return None
    address = None
    if re.fullmatch(rb"(?:(?:0|[1-9][0-9]{0,2})\.){3}(?:0|[1-9][0-9]{0,2})", name):
        parts = [int(part) for part in name.split(b".")]
        if max(parts) < 256:
            address = ipaddress.IPv4Address(bytes(parts))
    return name.lower(), address, colon + rest


def port_of(text):
    return int(text) if re.fullmatch(rb"[0-9]{1,5}", text) and int(text) < 65536 else None


def target_parts(method, target):
    """Scheme, host, address, port and path of a target; None where its method does not take it."""
    if not re.fullmatch(rb"[!-~]*", target) or b"#" in target:
        return None
    if method == b"CONNECT":
        host = host_of(target)
        if not host or not host[2].startswith(b":"):
            return None
        port = port_of(host[2][1:])
        return (None, host[0], host[1], port, None) if port else None
    absolute = re.fullmatch(rb"([A-Za-z][A-Za-z0-9+\-.]*)://([^/?]*)(.*)", target, re.DOTALL)
    if not absolute:
        return None
    scheme, authority, path = absolute.groups()
    scheme = scheme.lower()
    host = host_of(authority)
    if not host:
        return None
    if host[2] in (b"", b":"):
        port = {b"http": 80, b"https": 443, b"ftp": 21}.get(scheme, 0)
    elif host[2].startswith(b":"):
        port = port_of(host[2][1:])
    else:
        port = None
    return None if port is None else (scheme, host[0], host[1], port, path)


# Bodies

NONE, CHUNKED, TO_CLOSE = "none", "chunked", "to close"


def plan_by(fields, minor, otherwise):
    """How the end of a body is found: a number, NONE, CHUNKED or TO_CLOSE; or the status of a refusal."""
    codings, lengths = values(fields, b"transfer-encoding"), values(fields, b"content-length")
    if codings and lengths:
        return "400"
    if codings:
        if minor == 0:
            return "400"
        return CHUNKED if len(codings) == 1 and codings[0].lower() == b"chunked" else "501"
    if lengths:
        if len(lengths) > 1 or not re.fullmatch(rb"[0-9]{1,19}", lengths[0]) or int(lengths[0]) >= NUMBER_LIMIT:
            return "400"
        return int(lengths[0])
    return otherwise


def request_plan(request):
    return NONE if request.method == b"CONNECT" else plan_by(request.fields, request.minor, NONE)


def reply_plan(method, minor, status, fields):
    if method == b"HEAD" or 100 <= status < 200 or status in (204, 304):
        return NONE
    return plan_by(fields, minor, TO_CLOSE)


def has_body(plan):
    return plan == CHUNKED or isinstance(plan, int) and plan > 0


def chunk_line(data, at):
    """The size of the chunk line at a place and the place behind it; "more" where it may still become one; else "bad"."""
    line = data[at : at + LINE_LIMIT]
    whole = re.match(rb"([0-9A-Fa-f]{1,16})[ \t]*(?:;[^\r\n]*)?\r\n", line)
    if whole:
        size = int(whole.group(1), 16)
        return (size, at + whole.end()) if size < NUMBER_LIMIT else "bad"
    begun = re.fullmatch(rb"|[0-9A-Fa-f]{1,16}[ \t]*(?:;[^\r\n]*)?\r?", line)
    return "more" if begun and len(line) < LINE_LIMIT else "bad"


def trailers_end(data, at):
    """The place behind trailers, lines that end with CRLF up to an empty one; or "more", or "bad"."""
    if data[at : at + 2] == b"\r\n":
        return at + 2
    end = data.find(b"\r\n\r\n", at, at + TRAILER_LIMIT)
    if end >= 0:
        return end + 4
    return "more" if len(data) - at < TRAILER_LIMIT else "bad"


def body_of(plan, chunked, data):
    """What goes out of the body at the front of these bytes, what is left behind it, and "whole", "more" or "bad"."""
    if plan == NONE:
        plan = 0
    if plan == TO_CLOSE:
        return data, b"", "more"
    if plan != CHUNKED:
        return data[:plan], data[plan:], "whole" if len(data) >= plan else "more"
    out, at = [], 0
    while True:
        line = chunk_line(data, at)
        if isinstance(line, str):
            return b"".join(out), b"", line
        size, at = line
        if size == 0:
            end = trailers_end(data, at)
            if isinstance(end, str):
                return b"".join(out), b"", end
            if chunked:
                out.append(b"0\r\n\r\n")
            return b"".join(out), data[end:], "whole"
        if chunked:
            out.append(b"%x\r\n" % size)
        out.append(data[at : at + size])
        at += size
        behind = data[at : at + 2]
        if len(data) < at or behind in (b"", b"\r"):
            return b"".join(out), b"", "more"
        if behind != b"\r\n":
            return b"".join(out), b"", "bad"
        if chunked:
            out.append(b"\r\n")
        at += 2


# Heads that go out

OF_ONE_CONNECTION = {b"connection", b"proxy-connection", b"keep-alive", b"te", b"trailer", b"transfer-encoding", b"upgrade"}
OF_THE_PROXY = OF_ONE_CONNECTION | {b"host", b"proxy-authorization", b"expect"}


def options(fields):
    return [option.strip(b" \t").lower() for value in values(fields, b"connection") for option in value.split(b",")]


def kept(fields, dropped):
    listed = set(options(fields)) - {b"content-length"}
    return b"".join(b"%s: %s\r\n" % (n, v) for n, v in fields if n.lower() not in dropped and n.lower() not in listed)


def authority_of(request):
    return re.match(rb"[^:]*://([^/?]*)", request.target).group(1)


def origin_form(request):
    path = request.parts[4]
    if not path:
        return b"*" if request.method == b"OPTIONS" else b"/"
    return b"/" + path if path.startswith(b"?") else path


def head_out(request, address, plan):
    return b"%s %s HTTP/1.1\r\nHost: %s\r\n%s%sVia: 1.%d aclproxy\r\nX-Forwarded-For: %s\r\nConnection: close\r\n\r\n" % (
        request.method,
        origin_form(request),
        authority_of(request),
        kept(request.fields, OF_THE_PROXY),
        b"Transfer-Encoding: chunked\r\n" if plan == CHUNKED else b"",
        request.minor,
        address,
    )


def reply_head_out(head, chunked, closes):
    minor, status, phrase, fields = head
    return b"HTTP/1.1 %03d %s\r\n%s%sVia: 1.%d aclproxy\r\n%s\r\n" % (
        status,
        phrase,
        kept(fields, OF_ONE_CONNECTION),
        b"Transfer-Encoding: chunked\r\n" if chunked else b"",
        minor,
        b"Connection: close\r\n" if closes else b"",
    )


def own_reply(status, no_body, closes=True, text=None):
    phrase, line = OWN[status] if text is None else (b"403 Forbidden", text)
    return b"HTTP/1.1 %s\r\nContent-Type: text/plain\r\nContent-Length: %d\r\n%s\r\n%s" % (
        phrase,
        len(line) + 1,
        b"Connection: close\r\n" if closes else b"",
        b"" if no_body else line + b"\n",
    )


# Exchanges


def wants_close(request):
    return request.minor == 0 or b"close" in options(request.fields)


def wants_continue(request, plan):
    expected = any(value.lower() == b"100-continue" for value in values(request.fields, b"expect"))
    return request.minor == 1 and has_body(plan) and expected


def read_reply_head(head):
    """Version, status, phrase and fields of a whole head; None where it is none."""
    line = STATUS_LINE.match(head)
    fields = read_fields(head, line.end()) if line else None
    if fields is None or len(fields) > FIELD_LIMIT:
        return None
    minor, status, phrase = line.groups()
    return int(minor), int(status), phrase or b"", fields


def replied(request, data):
    """What a client gets of an origin's bytes, all of which came, and whether the connection stays, where it is known by them."""
    out, interim = b"", 0
    while True:
        end = head_end(data)
        head = read_reply_head(data[:end]) if end is not None and end <= HEAD_LIMIT else None
        if head is None or head[1] == 101 or (100 <= head[1] < 200 and interim == 16):
            return out + own_reply("502", request.no_body), False
        data = data[end:]
        if not 100 <= head[1] < 200:
            break
        interim += 1
        if request.minor == 1:
            out += reply_head_out(head, False, False)
    plan = reply_plan(request.method, head[0], head[1], head[3])
    if plan in ("400", "501"):
        return out + own_reply("502", request.no_body), False
    chunked = plan == CHUNKED and request.minor == 1
    closes = wants_close(request) or plan == TO_CLOSE
    body, _, state = body_of(plan, chunked, data)
    return out + reply_head_out(head, chunked, closes) + body, state == "whole" and not closes


class Turn:
    """What one request comes to. `reach` is the request whose origin is dialled; `waits` says that its body is not whole yet."""

    def __init__(self, client=b"", origin=b"", rest=b"", stays=False, reach=None, waits=False, broken=False):
        self.client, self.origin, self.rest, self.stays = client, origin, rest, stays
        self.reach, self.waits, self.broken = reach, waits, broken


def turn(data, address, judge):
    """The turn that the input begins with, up to the origin's reply; None where a head is still to come. `judge` gives for a
    request whether it is allowed, and the text of its denial."""
    end = head_end(data)
    if (end is None and len(data) >= HEAD_LIMIT) or (end is not None and end > HEAD_LIMIT):
        return Turn(own_reply("431", False))
    if end is None:
        return None
    request = read_request(data[:end])
    if isinstance(request, str):
        return Turn(own_reply(request, False))
    hosts = len(values(request.fields, b"host"))
    if not (hosts == 1 or hosts == 0 and request.minor == 0):
        return Turn(own_reply("400", request.no_body))
    plan = request_plan(request)
    if plan in ("400", "501"):
        return Turn(own_reply(plan, request.no_body))
    rest = data[end:]
    allowed, denial = judge(request)
    if not allowed:
        closes = has_body(plan) or wants_close(request)
        return Turn(own_reply("403", request.no_body, closes, denial), rest=rest, stays=not closes)
    if request.method == b"CONNECT":
        return Turn(ESTABLISHED, origin=rest, reach=request)
    if request.parts[0] != b"http":
        return Turn(own_reply("501", request.no_body))
    body, left, state = body_of(plan, plan == CHUNKED, rest)
    own = CONTINUE if wants_continue(request, plan) else b""
    return Turn(own, head_out(request, address, plan) + body, left, False, request, state == "more", state == "bad")
