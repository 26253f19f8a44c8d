#!/usr/bin/env python3
"""Compares verdicts with those of a real Squid: `ACLPROXY=PROGRAM tools/tests/alike.py`.

It needs Debian's package squid (its program in /usr/sbin), and starts one of its own on ports of the loopback, with its files in a
folder of its own. First each pattern is a list of its own at Squid, by a port for each, and `url_regex` here, as `check --squid` puts
it. Then a whole squid.conf is converted, and clients with many addresses ask for many things. Then the files of `cases` that have
verdicts are converted and asked these; for that it needs root, and has a network namespace of its own, where each client's address is this
machine's. A denial of Squid's is a 403; what it allows ends as a 503 or the like, since no origin listens. Left out is what is stated to
differ: Squid looks the names of hosts up, and the addresses of hosts too. The status is 0 where all verdicts are alike.
"""

import os
import re
import shutil
import socket
import subprocess
import sys
import tempfile
from pathlib import Path
from typing import Optional
from urllib.parse import urlsplit

sys.path.insert(0, str(Path(__file__).resolve().parent.parent))

from aclproxyctl.posix import translate  # noqa: E402
from aclproxyctl.squid_files import Converted, items_of  # noqa: E402
from aclproxyctl.squid_patterns import of_host, of_path  # noqa: E402
from tests.common import PROGRAM, ctl  # noqa: E402
from tests.loopback import squid  # noqa: E402

CASES = Path(__file__).resolve().parent / "cases"
# What a Squid of its own cannot have from a case: other files, users, programs and name servers.
NOT_HERE = {
    "cache_dir", "cache_effective_user", "pid_filename", "cache_log", "access_log", "coredump_dir", "dns_nameservers", "hosts_file", "url_rewrite_program",
    "url_rewrite_children", "url_rewrite_access", "url_rewrite_extras", "url_rewrite_bypass", "cache_peer", "cache_peer_access", "include", "visible_hostname",
    "deny_info", "logfile_rotate", "qos_flows", "max_filedescriptors", "shutdown_lifetime", "connect_timeout", "icp_port", "forward_timeout", "dns_timeout", "dns_retransmit_interval",
}
# Where all names lead to: to nobody.
NOWHERE = "192.0.2.80"

FIRST_PORT = 24000
NOBODY = 23998
# Set where this runs in a network namespace of its own.
OWN_NET = "ALIKE_OWN_NET"
PATTERNS = r"""a.b
^http://[a-z0-9.:]+/x
[\.]exe$
cheat.*sheet
[^/]+x$
[]a]z
[[a]z
[a-]z
a{2}z
a{,2}z
q{1,2}z
\.exe$
\/ads\/
(ads|track)er
[[:digit:]]{3}z
a\-z
[&&~~]z
x\wz
\bads\b
\<ads\>
a|bz
z$|^http://q
[!-/]z
\$z
a+z?
u*?z
[^a-c]z
a\\z
[\\]z
}z
\W\Wz
\Sz$
a\'
(a)(b)z
a\{z""".split("\n")
PATHS = """/x /a%0Ab /a%FFb /setup.exe /setup%5Cexe /setupexe /the%20cheat%0A%FFsheet /%FFx /x%0Ax /]z /az /%5Bz /-z /aaz /z /qz /qqz /qqqz
/ads/ /adser /tracker /123z /12z /a-z /&z /~z /xkz /x%C3%A9z /x-z /ads /adsx /x.ads.y /bz /!z /%25z /$z /aa /uuz /dz /%FFz /x%7B /a%7Bz
/a%5Cz /%5Cz /%7Dz /--z /%20%20z /a /ba /abz /ABZ /SETUP.EXE /x%E9z /q%0Az""".split()

TYPED = [
    *(("dstdom_regex", pattern) for pattern in (r"^ads\.", r"\.example$", r"(^|\.)ads\.example$", r"\.(com|games)$", "^[0-9.]+$", "x[.-]", "[.:]ads", "o.*m", "[^a-z]example", r"\bads\b")),
    *(("urlpath_regex", pattern) for pattern in (r"\.exe$", "/ads/", "^/ads", r"^/.*\.exe", "^/$", "/$", "[?&]v=", r"\?", "(^|/)ads", "[/?]x", "com$", "^/", "a.b")),
]
TYPED_HOSTS = ["ads.example", "AD.example", "x.ads.example", "a-b.com", "a-b.com.example", "10.0.0.7", "9.games", "[2001:db8::7]"]
TYPED_PATHS = ["", "/", "/x.exe", "/x.exe?y", "?x.exe", "?v=1", "/watch?v=1", "/a/ads/b", "/ads", "/%41ds/", "/a%0Ab", "/com", "/x/"]

WHOLE = """# Rules of many kinds. Each client has an address of the loopback's.
http_port 127.0.0.1:{port}
acl all src 0.0.0.0/0.0.0.0
acl office src 127.1.0.0/255.255.0.0
acl range src 127.2.0.10-127.2.0.20
acl listed src "{folder}/listed"
acl own dst 127.9.0.0/16
acl games dstdomain .games.example play.example
acl numbers dstdomain 127.0.0.7
acl odd port 81 8000-8010
acl Safe port 80 443 21 1025-65535 81 8000-8010
acl SSL port 443 8443
acl reading method GET HEAD
acl ftp proto FTP
acl bad url_regex -i "{folder}/bad"
acl bad url_regex -i /lower/ +i /Case/
acl staff all-of office reading
acl staff all-of range
acl people any-of staff listed
acl unused browser x
include {folder}/more.conf
http_access deny !Safe
http_access deny CONNECT !SSL
http_access deny bad
http_access deny people games
http_access deny numbers
http_access deny own !office
http_access deny ftp range
http_access allow people !odd
http_access allow office
http_access deny all
"""
FILES = {
    "listed": "# rooms\n127.3.0.1\n  127.3.1.0/24 # the annex\n",
    "bad": "cheat.*sheet\n\\.exe$\n[\\.]zip\n",
    "more.conf": "acl admin src 127.4.0.4\nhttp_access allow admin\n",
    "hosts": "127.0.0.1 www.games.example games.example play.example x.play.example a.example\n",
}
CLIENTS = ["127.0.0.1", "127.1.2.3", "127.2.0.9", "127.2.0.10", "127.2.0.20", "127.2.0.21", "127.3.0.1", "127.3.1.200", "127.3.2.1", "127.4.0.4"]
REQUESTS = [
    ("GET", f"http://{host}{port}{path}")
    for host in ("www.games.example", "GAMES.example", "play.example", "x.play.example", "a.example", "127.0.0.7", "127.9.1.1")
    for port, path in ((":81", "/"), (":82", "/"), (f":{NOBODY}", "/"), (f":{NOBODY}", "/a%0AcheatX%FFsheet"), (":8005", "/x.EXE"), (":8011", "/x.zip?y"), (f":{NOBODY}", "/case/Case/"))
] + [
    ("POST", f"http://a.example:{NOBODY}/"), ("HEAD", f"http://a.example:{NOBODY}/"), ("CONNECT", "a.example:443"), ("CONNECT", "a.example:8443"),
    ("CONNECT", "a.example:81"), ("CONNECT", "games.example:443"), ("GET", "ftp://a.example/x"), ("PUT", "http://play.example/"),
]


def status_of(client: str, port: int, method: str, target: str) -> str:
    """The status that Squid answers with."""
    authority = target if method == "CONNECT" else target.split("/")[2]
    for _ in range(3):
        with socket.create_connection(("127.0.0.1", port), 20, source_address=(client, 0)) as link:
            body = "Content-Length: 0\r\n" if method in ("POST", "PUT") else ""
            link.sendall(f"{method} {target} HTTP/1.1\r\nHost: {authority}\r\n{body}Connection: close\r\n\r\n".encode())
            got = link.recv(64)
        if got:
            return got.split(b" ")[1].decode()
    return "none"


def ours(folder: Path, source: bytes, asked: list[tuple[str, str, str]]) -> list[str]:
    """The verdicts of this proxy."""
    lines = []
    for number, (client, method, target) in enumerate(asked, 1):
        escaped = target.replace("%", "%25")
        lines += [f"0 open {number} {client} 1", f"0 ask {number} {method} {escaped}", f"0 step {number}", f"0 take {number}"]
    (folder / "ours.conf").write_bytes(source)
    (folder / "script").write_text("".join(line + "\n" for line in lines))
    ran = subprocess.run([PROGRAM, "replay", str(folder / "ours.conf"), str(folder / "script")], capture_output=True, text=True, check=True)
    return [line.split(" => epoch 1 ")[1].split(" ")[0] for line in ran.stdout.splitlines() if " take " in line]


def compare(what: str, asked: list[tuple[str, str, str]], theirs: list[str], mine: list[str]) -> tuple[int, int]:
    differ = 0
    for (client, method, target), status, verdict in zip(asked, theirs, mine):
        if (status == "403") != (verdict == "denied"):
            differ += 1
            print(f"{what}: {client} {method} {target}: Squid {status}, here {verdict}")
    return len(asked), differ


def patterns(folder: Path) -> tuple[int, int]:
    lines = []
    for number, pattern in enumerate(PATTERNS):
        lines += [
            f"http_port 127.0.0.1:{FIRST_PORT + number} name=p{number}", f"acl on{number} myportname p{number}", f"acl pattern{number} url_regex {pattern}",
            f"http_access deny on{number} pattern{number}", f"http_access allow on{number}",
        ]
    asked = [("127.0.0.1", "GET", f"http://127.0.0.1:{NOBODY}{path}") for path in PATHS]
    count = differ = 0
    with squid(folder, [*lines, "http_access deny all"], FIRST_PORT):
        for number, pattern in enumerate(PATTERNS):
            theirs = [status_of(client, FIRST_PORT + number, method, target) for client, method, target in asked]
            mine = ours(folder, f"acl a url_regex {translate(pattern)}\nhttp_access deny a\nhttp_access allow all\n".encode(), asked)
            more, wrong = compare(f"pattern {pattern}", asked, theirs, mine)
            count, differ = count + more, differ + wrong
    return count, differ


def typed(folder: Path) -> tuple[int, int]:
    """Patterns over hosts and over paths, which become patterns over the whole target."""
    lines = []
    hosts = [host for host in TYPED_HOSTS if not re.fullmatch(r"[0-9.]+|\[.*", host)]
    (folder / "hosts").write_text("127.0.0.1 localhost\n" + "".join(f"127.0.0.1 {host.lower()}\n" for host in hosts))
    for number, (kind, pattern) in enumerate(TYPED):
        flag = "-n " if kind == "dstdom_regex" else ""
        lines += [f"http_port 127.0.0.1:{FIRST_PORT + number} name=p{number}", f"acl on{number} myportname p{number}", f"acl pattern{number} {kind} {flag}{pattern}",
                  f"http_access deny on{number} pattern{number}", f"http_access allow on{number}"]
    asked = [("127.0.0.1", "GET", f"http://{host}:{NOBODY}{path}") for host in TYPED_HOSTS for path in TYPED_PATHS]
    asked += [("127.0.0.1", "CONNECT", f"{host}:{NOBODY}") for host in TYPED_HOSTS]
    count = differ = 0
    with squid(folder, [*lines, "http_access deny all"], FIRST_PORT):
        for number, (kind, pattern) in enumerate(TYPED):
            theirs = [status_of(client, FIRST_PORT + number, method, target) for client, method, target in asked]
            new = f"-i {of_host(pattern, False)}" if kind == "dstdom_regex" else of_path(pattern)
            mine = ours(folder, f"acl a url_regex {new}\nhttp_access deny a\nhttp_access allow all\n".encode(), asked)
            more, wrong = compare(f"{kind} {pattern}", asked, theirs, mine)
            count, differ = count + more, differ + wrong
    return count, differ


def whole(folder: Path) -> tuple[int, int]:
    (folder / "hosts").write_text(FILES["hosts"])
    source = WHOLE.format(port=FIRST_PORT, folder=folder)
    (folder / "whole.conf").write_text(source)
    ended = ctl("check", "--squid", str(folder / "whole.conf"), "-o", str(folder / "converted.conf"))
    if ended.status != 0:
        sys.exit(ended.out + ended.err)
    asked = [(client, method, target) for client in CLIENTS for method, target in REQUESTS]
    with squid(folder, source.splitlines(), FIRST_PORT):
        theirs = [status_of(client, FIRST_PORT, method, target) for client, method, target in asked]
    # The script answers no look-up, and no request asks for a name whose address is in a list of type dst.
    converted = re.sub(rb"\ndst_lookup on.*\n", b"\n", (folder / "converted.conf").read_bytes())
    return compare("whole", asked, theirs, ours(folder, converted, asked))


def for_squid(conf: Path, port: int, helper: Path) -> list[str]:
    """The lines of a case as a Squid of its own can have them: one port of the loopback, and a helper that says ERR."""
    # Squid 5 does not have this list from the start.
    lines = [f"http_port 127.0.0.1:{port}", "acl to_linklocal dst 169.254.0.0/16 fe80::/10"]
    for item in items_of(str(conf), str(conf), 0, Converted()):
        name = item.word(0)
        if not name or name in NOT_HERE or name == "http_port":
            continue
        text = item.line.text.decode().split(" #")[0].strip()
        if name == "external_acl_type":
            words = text.split()
            # Squid 5 does not read %{NAME} any more, which older ones did.
            tokens = [word.replace("%{", "%>{") for word in words[2:] if word.startswith("%")]
            text = " ".join([*words[:2], "children-max=1", *tokens, str(helper)])
        lines.append(text)
    return lines


def of_case(folder: Path, case: Path, port: int) -> tuple[int, int]:
    """What Squid and this proxy say of the requests of a case, at this moment."""
    conf = case / ("mended.conf" if (case / "mended.conf").exists() else "squid.conf")
    accepted = [word for name in read_lines(case / "accept") for word in ("--accept", name)]
    to = folder / f"{case.name}.conf"
    ended = ctl("check", "--squid", str(conf), "-o", str(to), *accepted)
    if ended.status != 0:
        sys.exit(ended.out + ended.err)
    asked = [(words[0], words[1], words[2]) for words in (line.rpartition(": ")[0].split() for line in read_lines(case / "verdicts"))]
    hosts = {host for host in (urlsplit(target if "://" in target else "//" + target).hostname or "" for _, _, target in asked) if not re.fullmatch(r"[0-9.]+|.*:.*", host)}
    (folder / "hosts").write_text("127.0.0.1 localhost\n" + "".join(f"{NOWHERE} {host}\n" for host in sorted(hosts) if host != "localhost"))
    for client in {client for client, _, _ in asked}:
        subprocess.run(["ip", "addr", "replace", f"{client}/32", "dev", "lo"], check=True)
    helper = folder / "helper"
    helper.write_text("#!/bin/sh\nwhile read -r line; do echo ERR; done\n")
    helper.chmod(0o755)
    to.write_text(re.sub(r"(?m)^(external_acl_type .*) /usr/local/bin/.*$", rf"\1 {helper}", to.read_text()).replace("\ndst_lookup", "\n# dst_lookup"))
    with squid(folder, for_squid(conf, port, helper), port, case):
        theirs = [status_of(client, port, method, target) for client, method, target in asked]
    mine = [ctl("explain", "--ask", str(to), client, method, target).out.split(" ", 1)[0] for client, method, target in asked]
    return compare(case.name, asked, theirs, mine)


def read_lines(path: Path) -> list[str]:
    return [line for line in path.read_text().splitlines() if line and not line.startswith("#")] if path.exists() else []


def cases(folder: Path) -> tuple[int, int]:
    count = differ = 0
    for number, verdicts in enumerate(sorted(CASES.glob("*/verdicts"))):
        more, wrong = of_case(folder, verdicts.parent, FIRST_PORT + 100 + number)
        count, differ = count + more, differ + wrong
    return count, differ


def main() -> Optional[str]:
    if not PROGRAM or shutil.which("squid") is None:
        return "the variable ACLPROXY names no program, or there is no squid"
    folder = Path(tempfile.mkdtemp(prefix="alike-"))
    # Squid begins as root, and goes on as a user of its own.
    folder.chmod(0o777)
    try:
        for name, text in FILES.items():
            (folder / name).write_text(text)
        results = [patterns(folder), typed(folder), whole(folder), cases(folder) if OWN_NET in os.environ else (0, 0)]
    finally:
        shutil.rmtree(folder, ignore_errors=True)
    differ = sum(wrong for _, wrong in results)
    print(f"patterns: {results[0][0]:,} verdicts, over hosts and paths: {results[1][0]:,}, whole file: {results[2][0]:,}, cases: {results[3][0]:,}; {differ} differ")
    return None if differ == 0 else "some verdicts differ"


if __name__ == "__main__":
    os.environ["PATH"] += ":/usr/sbin"
    if OWN_NET not in os.environ and os.geteuid() == 0 and shutil.which("unshare") and shutil.which("ip"):
        again = 'ip link set lo up && exec "$@"'
        os.execvpe("unshare", ["unshare", "--net", "sh", "-c", again, "sh", sys.executable, __file__], {**os.environ, OWN_NET: "1"})
    sys.exit(main())
