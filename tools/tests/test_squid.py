"""check --squid: the files of a distribution, a school and an office in the form of this proxy, or why not."""

import re
import unittest
from pathlib import Path
from typing import Iterator
from unittest import mock
from urllib.parse import unquote

from aclproxyctl.posix import Untranslatable
from aclproxyctl.squid import Converter, Knows
from aclproxyctl.squid_directives import NO_EFFECT, ROWS, TABLE, Class
from aclproxyctl.squid_forms import SAME
from aclproxyctl.squid_patterns import of_host, of_path
from aclproxyctl.words import NOTICES, plural
from tests.common import InFolder, ctl, needs_program

CASES = Path(__file__).resolve().parent / "cases"


def lines(path: Path) -> list[str]:
    return [line for line in path.read_text().splitlines() if line and not line.startswith("#")]


class Tables(unittest.TestCase):
    def test_one_place_each(self) -> None:
        """Each directive stands once, so in one class; nothing harmless is looked at by itself."""
        names = [name for name, _ in ROWS]
        self.assertEqual([name for name in TABLE if names.count(name) > 1], [])
        self.assertEqual([name for name in NO_EFFECT if hasattr(Converter, "on_" + name)], [])

    def test_reference(self) -> None:
        """Each directive of Squid 6's reference is in the table, and whatever else is there is of an older Squid, or a word of the file's."""
        reference = lines(CASES / "reference" / "squid-6")
        self.assertEqual(len(reference), 387)
        self.assertEqual([name for name in reference if name not in TABLE], [])
        self.assertEqual(sorted(set(TABLE) - set(reference)), lines(CASES / "reference" / "older"))

    def test_stops(self) -> None:
        """Each that stops says how to go on, and forms that do not stop are of such."""
        stops = {name for name, row in TABLE.items() if row.what is Class.STOPS}
        self.assertEqual([name for name in stops if not TABLE[name].instead and not TABLE[name].accept], [])
        self.assertEqual([name for name in SAME if name not in stops], [])
        self.assertEqual([name for name in stops if not TABLE[name].text], [])

    def test_notices(self) -> None:
        """What the program reads without effect is harmless, or is stopped at by its words."""
        self.assertEqual([name for name in NOTICES if TABLE[name].what not in (Class.HARMLESS, Class.STOPS)], [])


@needs_program
class Cases(InFolder):
    """Each folder of cases: a squid.conf with what comes of it, written by hand.

    `stops`: it is not converted, by these lines. `accept`: what is gone on without; with `stops`, once they were told. `expected`: the new
    lines, of mended.conf where that is there. `warnings`: what is said of lines. `verdicts`: what Squid's documentation gives.
    """

    def said_of(self, case: str, conf: str, *words: str) -> tuple[int, list[str]]:
        """The status, and what is said of lines, each by its place in the folder."""
        ended = ctl("check", "--squid", str(CASES / case / conf), "-o", str(self.folder / f"{case}.conf"), *words)
        self.assertEqual(ended.err, "")
        self.whole = ended.out
        return ended.status, [line.replace(f"{CASES}/{case}/", "") for line in ended.out.splitlines() if line.startswith(f"{CASES}/{case}/")]

    def begin(self, said: list[str], wanted: list[str], case: str) -> None:
        for line, want in zip(said, wanted):
            self.assertTrue(line.startswith(want), (case, line, want))
        self.assertEqual(len(said), len(wanted), (case, said))

    def check_case(self, case: str) -> None:
        folder = CASES / case
        to = self.folder / f"{case}.conf"
        if (folder / "stops").exists():
            status, said = self.said_of(case, "squid.conf")
            self.assertEqual((status, to.exists()), (1, False), case)
            wanted = lines(folder / "stops")
            self.begin(said[:-1], wanted, case)
            self.assertIn(f"is not converted: {plural(len(wanted), 'line')} would change what clients may do or what others see; nothing was written", said[-1])
        if not (folder / "expected").exists():
            return
        accepted = lines(folder / "accept") if (folder / "accept").exists() else []
        conf = "mended.conf" if (folder / "mended.conf").exists() else "squid.conf"
        status, said = self.said_of(case, conf, *(word for name in accepted for word in ("--accept", name)))
        self.assertEqual(status, 0, self.whole)
        judged = ctl("check", str(to))
        self.assertEqual(judged.status, 0)
        self.assertNotIn("no effect", judged.out)
        self.assertEqual([line for line in lines(to) if not line.startswith("dst_lookup on")], lines(folder / "expected"), case)
        if (folder / "warnings").exists():
            own = [line for line in said if ": warning: " in line]
            for want in lines(folder / "warnings"):
                where, _, text = want.partition(": ")
                self.assertTrue(any(line.startswith(f"{where}: warning: {text}") for line in own), (case, want, own))
        for line in lines(folder / "verdicts"):
            asked, _, wanted_verdict = line.rpartition(": ")
            client, method, url, at = asked.split()
            ended = ctl("explain", str(to), client, method, url, "--at", at)
            self.assertEqual(ended.out.splitlines()[0], wanted_verdict, (case, line))

    def test_all(self) -> None:
        cases = sorted(path.parent.name for path in CASES.glob("*/squid.conf"))
        self.assertGreaterEqual(len(cases), 15)
        for case in cases:
            with self.subTest(case):
                self.check_case(case)

    def test_what_is_left_out(self) -> None:
        """What changes nothing stands in the new file with its place and the reason."""
        self.said_of("debian", "squid.conf")
        text = (self.folder / "debian.conf").read_text()
        where = str(CASES / "debian")
        self.assertIn(f"# [{where}/conf.d/debian.conf:2: there is no such log: `aclproxyctl log` makes one of the journal] logfile_rotate 0\n", text)
        self.assertIn(f"# [{where}/squid.conf:31: there is no cache] refresh_pattern ^gopher: 1440 0% 1440\n", text)
        self.assertIn("\n#http_access allow localnet\n", text)


@needs_program
class Squid(InFolder):
    def convert(self, *source: str) -> tuple[int, list[str], str]:
        ended = ctl("check", "--squid", self.file("c", source))
        return ended.status, [line for line in ended.out.splitlines() if line and not line.startswith("#") and not line.startswith("dst_lookup on")], ended.err

    def test_standard_output(self) -> None:
        """Without a file the text is on standard output, and the words are on standard error."""
        status, text, said = self.convert("http_access deny all", "cache_mem 1 GB")
        self.assertEqual((status, text), (0, ["http_access deny all"]))
        self.assertIn("is converted: 1 line kept, 1 commented out\n", said)

    def test_stops(self) -> None:
        for source, part in (
            (["http_access allow nosuch"], "does not stand before it: `nosuch`"),
            (["acl a dstdomain .a.example", "acl g any-of a b", "acl b browser x", "http_access deny g"], "its list b "),
            (["if ${process_number} = 1", "http_port 1", "endif"], "under a condition"),
            (["follow_x_forwarded_for allow localhost"], "told apart by an address in X-Forwarded-For"),
            (["miss_access deny all"], "it denies what is not in the cache"),
            (["icap_enable on"], "a server may deny or change"),
            (["http_port 3128 transparent"], "`transparent`"),
            (["https_port 3129 cert=/x"], "clients that come by TLS"),
            (["client_ip_max_connections 5"], "an address has so many connections at most"),
            (["append_domain .a.example"], "a domain is put behind names"),
            (["acl a src ipv6", "http_access deny a"], "`ipv6` is Squid's word"),
            (["acl a src host.example", "http_access deny a"], "`host.example` is no address"),
            (["acl a url_regex (a)\\1", "http_access deny a"], "refers back to a group"),
            (['acl a src "none"', "http_access deny a"], "its values cannot be read: "),
            ([f'acl a src "{self.folder}/c" 10.0.0.1', "http_access deny a"], "Squid passes over what stands behind"),
            (["include none/*.conf"], "there is no file none/*.conf"),
            (["external_acl_type v %LOGIN /bin/h", "acl a external v", "http_access deny a"], "a token of the format is not known here"),
            (["acl a maxconn 3", "http_access deny a", "client_db off"], "never holds in Squid"),
            (["host_verify_strict on"], "whose Host is another"),
            (["url_rewrite_program /usr/bin/ufdbgclient -l /var/log"], "all https would pass it unfiltered"),
            (["redirect_program /usr/bin/squidGuard"], "--accept https-unfiltered keeps the program"),
            (["store_id_program /usr/bin/store"], "--accept store_id_program goes on without it"),
            (["url_rewrite_program none", "url_rewrite_program /bin/r", "url_rewrite_timeout 5 seconds on_timeout=fail"], "whose program owes an answer"),
            (["deny_info 302:http://portal.example/ all"], "sent to another address, reset, or told by another status"),
            (["deny_info TCP_RESET all"], "sent to another address, reset, or told by another status"),
            (["hosts_file none"], "looked up in the machine's /etc/hosts"),
            (["request_header_access User-Agent deny all", "request_header_replace User-Agent x"], "with another value"),
            (["reply_header_access All deny all", "reply_header_replace Server x"], "with another value"),
            (["dns_nameservers 192.0.2.53"], "looked up by the servers of the machine's /etc/resolv.conf"),
            (["dns_defnames on"], "a name is exactly what was written"),
            (["tcp_outgoing_mark 0x1 all"], "carries no mark"),
            (["http_upgrade_request_protocols WebSocket allow all"], "Upgrade is not passed on"),
            (["client_delay_pools 2"], "what clients send is limited"),
            (["reply_body_max_size 10 MB"], "--accept reply_body_max_size goes on without it"),
        ):
            status, text, said = self.convert(*source)
            self.assertEqual((status, text), (1, []), source)
            self.assertIn(part, said, source)
            self.assertIn("nothing was written", said)

    def test_harmless_forms(self) -> None:
        status, text, _ = self.convert(
            "follow_x_forwarded_for deny all", "miss_access allow all", "icap_enable off", "never_direct deny all", "host_verify_strict off",
            "reply_body_max_size none", "ssl_bump splice all", "url_rewrite_children 5", "acl a browser x", "acl b url_regex (a)\\1",
            'acl c src "none"', "external_acl_type v %LOGIN /bin/h", "acl d external v", "acl e any-of a d",
            "deny_info ERR_OWN all", "hosts_file /etc/hosts", "request_header_replace User-Agent x", "reply_header_replace Server x", "dns_defnames off", "url_rewrite_program none",
            "url_rewrite_access deny all", "http_upgrade_request_protocols OTHER deny all", "client_delay_pools 0", "quick_abort_min 0 KB", "max_filedescriptors 4096",
            "request_body_max_size 0", "wccp2_router 0.0.0.0", "tls_key_log /x", "paranoid_hit_validation 1 ms", "cache_log_message id=1 level=2", "http_access deny all",
        )
        self.assertEqual((status, text), (0, ["http_access deny all"]))

    def test_name_servers(self) -> None:
        """Servers that are those of the machine change nothing."""
        here = self.file("resolv.conf", ["# by hand", "search corp.example", "nameserver 192.0.2.53", "nameserver 2001:db8::53"])
        with mock.patch("aclproxyctl.squid_forms.RESOLV_CONF", here):
            self.assertEqual(self.convert("dns_nameservers 192.0.2.53 2001:db8::53", "http_access deny all")[:2], (0, ["http_access deny all"]))
            self.assertEqual(self.convert("dns_nameservers 2001:db8::53 192.0.2.53")[0], 1)

    def test_other_bytes(self) -> None:
        """Letters stay as they are; bytes that are no text stop what is kept, and nothing else."""
        status, text, _ = self.convert("acl gr\u00fcn dstdomain a.example # f\u00fcr\u00a0alle", "http_access deny gr\u00fcn")
        self.assertEqual((status, text), (0, ["acl gr\u00fcn dstdomain a.example", "http_access deny gr\u00fcn"]))
        conf = self.file("c", b"http_access deny all\ncache_mgr caf\xe9\n# caf\xe9\n")
        self.assertEqual(ctl("check", "--squid", conf, "-o", str(self.folder / "one")).status, 0)
        for source in (b"acl a dstdomain caf\xe9\nhttp_access deny a\n", b'acl a dstdomain "bytes"\nhttp_access deny a\n'):
            self.file("bytes", b"a.example\ncaf\xe9\n")
            ended = ctl("check", "--squid", self.file("c", source), "-o", str(self.folder / "two"))
            self.assertEqual(ended.status, 1)
            self.assertIn("is not UTF-8", ended.out)

    def test_second_port(self) -> None:
        status, text, said = self.convert("http_port 3128", "http_port 8080", "http_access deny all")
        self.assertEqual((status, text), (0, ["http_port 3128", "http_access deny all"]))
        self.assertIn("clients that use port 8080 are not served", said)

    def test_long_list(self) -> None:
        """A list of many values is spread over lines, each with the flag that counts there."""
        self.file("names", [f"bad{number}" for number in range(3000)])
        status, text, _ = self.convert(f'acl a url_regex -i "{self.folder}/names"', "acl a url_regex LAST", "http_access deny a")
        self.assertEqual(status, 0)
        rows = [line.split() for line in text[:-2]]
        self.assertGreater(len(rows), 3)
        self.assertTrue(all(row[:4] == ["acl", "a", "url_regex", "-i"] for row in rows))
        self.assertEqual([word for row in rows for word in row[4:]], [f"bad{number}" for number in range(3000)])
        self.assertEqual(text[-2:], ["acl a url_regex LAST", "http_access deny a"])

    def test_too_large(self) -> None:
        self.file("names", [f"{'x' * 60}{number}" for number in range(20000)])
        status, text, said = self.convert(f'acl a dstdomain "{self.folder}/names"', "http_access deny a")
        self.assertEqual((status, text), (1, []))
        self.assertIn("the file passes a limit: 1,048,576 bytes", said)

    def test_bad_input(self) -> None:
        self.no_traceback(ctl("check", "--squid", str(self.folder / "none"), "-o", str(self.folder / "x")), 66, "there is no such file")
        there = self.file("x", [])
        self.no_traceback(ctl("check", "--squid", self.file("c", []), "-o", there), 71, "is there already, and no conversion wrote it")
        self.no_traceback(ctl("check", "--squid", self.file("c", ["icp_port 0"]), "--accept", "icp_port0"), 64, "--accept icp_port0: nothing stops by that name")
        self.no_traceback(ctl("check", there, "--accept", "via"), 64, "--accept goes with --squid")
        self.no_traceback(ctl("check", there, "-o", "y"), 64, "--output goes with --squid")
        self.file("c", [f"include {self.folder}/c"])
        ended = ctl("check", "--squid", str(self.folder / "c"), "-o", str(self.folder / "y"))
        self.assertEqual(ended.status, 1)
        self.assertIn("files are included more than 16 deep", ended.out)

    def test_written_again(self) -> None:
        """A file that a conversion wrote is written anew, with its mode; a stop leaves it as it was."""
        to = self.folder / "new.conf"
        self.assertEqual(ctl("check", "--squid", self.file("c", ["http_access deny all"]), "-o", str(to)).status, 0)
        self.assertTrue(to.read_text().startswith("# Converted by aclproxyctl from c."))
        to.chmod(0o640)
        self.assertEqual(ctl("check", "--squid", self.file("c", ["http_access allow all"]), "-o", str(to)).status, 0)
        self.assertEqual((lines(to), to.stat().st_mode & 0o777), (["http_access allow all"], 0o640))
        self.assertEqual(ctl("check", "--squid", self.file("c", ["mystery on"]), "-o", str(to)).status, 1)
        self.assertEqual(lines(to), ["http_access allow all"])
        self.assertEqual(sorted(path.name for path in self.folder.iterdir()), ["c", "new.conf"])

    def test_one_round(self) -> None:
        """Faults behind a line that stops, and on it, are told in the same round."""
        status, _, said = self.convert(
            'external_acl_type v cash=1 %LOGIN "/bin/my helper"', "acl a external v", "acl b url_regex \\d", "acl c time 9-8", "http_access deny a b",
            "http_access deny c d", "delay_pools 1", "delay_class 1 4", "delay_parameters 1 none none none none", "delay_access 2 allow all", "mystery",
        )
        self.assertEqual(status, 1)
        for number, part in (
            (1, "is quoted"), (1, "an option is not known here: `cash=1`"), (3, "`\\d` is the plain letter"), (4, "a word of a time list"),
            (6, "does not stand before it: `d`"), (8, "class 4 is not here"), (10, "above the number of delay_pools"), (11, "what `mystery` does"),
        ):
            self.assertTrue(any(line.startswith(f"{self.folder}/c:{number}: ") and part in line for line in said.splitlines()), (number, part, said))

    def test_forwarded_for(self) -> None:
        rule = "request_header_access X-Forwarded-For deny all"
        for value in ("off", "delete", "transparent", "on"):
            status, text, _ = self.convert("forwarded_for on", f"forwarded_for {value}", "http_access deny all")
            self.assertEqual((status, text), (0, ["http_access deny all"] if value == "on" else [rule, "http_access deny all"]))
        self.assertEqual(self.convert("forwarded_for truncate")[0], 1)
        self.assertEqual(self.convert("forwarded_for off", "forwarded_for on", "via on")[1], [])

    def test_lookups(self) -> None:
        """The line stands where a list of type dst needs it, and for those of the start alone there is a form without."""
        for source, first, offered in (
            (["http_access deny to_localhost"], True, True),
            (["acl a dst 10.0.0.0/8", "http_access deny a to_localhost"], True, False),
            (["acl to_localhost dst 10.0.0.0/8", "http_access deny to_localhost"], True, False),
            (["acl a dst 10.0.0.0/8", "http_access deny all"], False, False),
        ):
            ended = ctl("check", "--squid", self.file("c", source))
            self.assertEqual((ended.status, "\ndst_lookup on" in ended.out, "--accept local-names" in ended.err), (0, first, offered), source)
        ended = ctl("check", "--squid", self.file("c", ["http_access deny !to_localhost"]), "--accept", "local-names")
        self.assertIn("\nacl to_localhost_or_named any-of to_localhost to_localhost_names\nhttp_access deny !to_localhost_or_named\n", ended.out)
        self.assertIn("another name of such an address passes them here, and not in Squid", ended.err)


class Lookups(InFolder):
    def test_line(self) -> None:
        """The line has room for many clients, where the program reads its options."""
        conf = self.file("c", ["acl a dst 10.0.0.0/8", "http_access deny a"])
        for reads, wanted in ((True, "dst_lookup on children-max=64 queue-size=4096"), (False, "dst_lookup on")):
            with mock.patch.object(Knows, "reads", lambda self, line: reads):
                converter = Converter(conf, Knows("/none"))
                self.assertEqual(converter.convert().text[1], wanted)


class Patterns(unittest.TestCase):
    """Patterns over a host or a path: what the new pattern holds of is what the old one does, of many targets."""

    HOSTS = "ads.example AD.example x.ads.example a.example a-b.com a-b.com.example 10.0.0.7 com nocom 9.games".split()
    PATHS = ["", "/", "/x.exe", "/x.exe?y", "?x.exe", "?v=1", "/watch?v=1", "/a/ads/b", "/ads/", "/ads", "/%41ds/", "/a%0Ab", "/com", "/?", "/x/"]

    def targets(self) -> Iterator[tuple[str, str, str]]:
        """Each as it is looked at, with its host, and its path as Squid has it."""
        for host in self.HOSTS:
            yield f"{host}:443", host, ""
            for port in ("", ":", ":8080"):
                for path in self.PATHS:
                    text = unquote(path)
                    yield f"http://{host}{port}{text}", host, text if text.startswith("/") else "/" + text

    def rust(self, pattern: str, fold: bool) -> "re.Pattern[str]":
        """As Python's re has it: of what these patterns use, the leading flags and what is common to two sets are written otherwise."""
        text = re.sub(r"\[(\[[^]]*\])&&\[\^/:\?\]\]", r"(?:(?![/:?])\1)", pattern.removeprefix("(?s-u)"))
        return re.compile(text.replace("$", "\\Z"), re.DOTALL | (re.IGNORECASE if fold else 0))

    def test_hosts(self) -> None:
        for pattern in (r"^ads\.", r"\.example$", r"(^|\.)ads\.example$", r"\.(com|games)$", r"^[0-9.]+$", r"x[.-]", "o.*m", r"^a-?b?.*x", r"[^a-z]example", r"\bads\b"):
            new = self.rust(of_host(pattern, False), True)
            for target, host, _ in self.targets():
                wanted = re.search(pattern.replace("$", "\\Z"), host.lower(), re.DOTALL) is not None
                self.assertEqual(new.search(target) is not None, wanted, (pattern, target))

    def test_paths(self) -> None:
        for pattern in (r"\.exe$", "/ads/", "^/ads", r"^/.*\.exe", "^/$", "/$", "[?&]v=", r"\?", "a", r"(^|/)ads", r"[/?]x", "com$", "^/", r"a.b", "^/(watch|ads)/?"):
            new = self.rust(of_path(pattern), False)
            for target, _, path in self.targets():
                wanted = bool(path) and re.search(pattern.replace("$", "\\Z"), path, re.DOTALL) is not None
                self.assertEqual(new.search(target) is not None, wanted, (pattern, target))

    def test_without_like(self) -> None:
        for pattern in ("a^b", "^$", ".", r"[0-9]+\.[0-9]+", "ADS", "[A-Z]x", "(a|b$)c", "a/b", "(ads", "ads)x", "xy{"):
            with self.assertRaises(Untranslatable, msg=pattern):
                of_host(pattern, False)
        for pattern in ("a^b", "^x", "/?x", "x*", r"^/\?", "[/?]*x", r"\bx", "(ads", "ads)x"):
            with self.assertRaises(Untranslatable, msg=pattern):
                of_path(pattern)
        self.assertEqual(of_host("ADS", True), r"(?s-u)^([^:/]+://[^/:?]*ADS|[^/:?]*ADS[^/:?]*:[0-9]+$)")
