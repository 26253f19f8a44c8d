"""The origin of tests/clients.sh: clients_origin.py FOLDER, in which it finds certificate and key (`cert.pem`, `key.pem`), a
repository of git (`git/one.git`) and files (`files`), and into which it writes its two ports, of http and of https (`ports`), and
what browsers report (`reports`).

    /bytes/N      N bytes, or the range of them that is asked for
    /sink         how many bytes the request's body had, and their CRC-32
    /page         a page with pictures, which tries what a page may, and reports it
    /picture/N    a picture of N pixels a side
    /ws           a WebSocket that sends back what comes
    /report       its query and body are a line in `reports`
    /git/         git's own server
    /files/       the files
    /expect       whether the request's head had an Expect field
"""

import base64
import hashlib
import os
import random
import ssl
import struct
import subprocess
import sys
import threading
import zlib
from http.server import BaseHTTPRequestHandler, ThreadingHTTPServer
from pathlib import Path
from typing import Iterator

FOLDER = Path(sys.argv[1])
# No buffer on the way has this size, nor a multiple of it, so that a piece that is lost, or stands twice, is seen.
BLOCK = random.Random(1).randbytes(1_048_573)

PAGE = """<!DOCTYPE html>
<html><head><meta charset="utf-8"><title>page</title></head><body>
%s
<script>
async function pictures() {
    const all = [...document.images];
    await Promise.all(all.map(one => one.decode()));
    return all.filter(one => one.naturalWidth === Number(one.alt)).length;
}
function socket() {
    return new Promise((resolve, reject) => {
        const socket = new WebSocket((location.protocol === "https:" ? "wss://" : "ws://") + location.host + "/ws");
        const sent = "0123456789".repeat(20000);
        socket.onopen = () => socket.send(sent);
        socket.onmessage = event => { resolve(event.data === sent ? "same" : "other"); socket.close(); };
        socket.onerror = () => reject("error");
    });
}
async function post() {
    const reply = await fetch("/sink", { method: "POST", body: "x".repeat(300000) });
    return (await reply.text()).split(" ")[0];
}
async function denied() {
    const reply = await fetch("/refused");
    return reply.status + " " + (await reply.text()).trim();
}
async function told(what) {
    try { return await what(); } catch (fault) { return "fault " + fault; }
}
(async () => {
    const words = [location.protocol, "pictures", await told(pictures), "socket", await told(socket), "post", await told(post), "denied", await told(denied)];
    await fetch("/report", { method: "POST", body: words.join(" ") });
})();
</script>
</body></html>
"""


def picture(side: int) -> bytes:
    """A PNG of grey noise."""

    def chunk(kind: bytes, data: bytes) -> bytes:
        return struct.pack(">I", len(data)) + kind + data + struct.pack(">I", zlib.crc32(kind + data))

    rows = b"".join(b"\0" + random.Random(side + row).randbytes(side) for row in range(side))
    header = struct.pack(">IIBBBBB", side, side, 8, 0, 0, 0, 0)
    return b"\x89PNG\r\n\x1a\n" + chunk(b"IHDR", header) + chunk(b"IDAT", zlib.compress(rows)) + chunk(b"IEND", b"")


class Handler(BaseHTTPRequestHandler):
    protocol_version = "HTTP/1.1"
    timeout = 120

    def log_message(self, *words) -> None:
        pass

    def body(self) -> Iterator[bytes]:
        if self.headers.get("Transfer-Encoding", "").lower() == "chunked":
            while size := int(self.rfile.readline().split(b";")[0], 16):
                while size:
                    piece = self.rfile.read(min(size, 1 << 20))
                    if not piece:
                        return
                    size -= len(piece)
                    yield piece
                self.rfile.readline()
            while self.rfile.readline() not in (b"\r\n", b"\n", b""):
                pass
            return
        left = int(self.headers.get("Content-Length", 0))
        while left:
            piece = self.rfile.read(min(left, 1 << 20))
            if not piece:
                return
            left -= len(piece)
            yield piece

    def reply(self, data: bytes, kind: str = "text/plain", status: int = 200) -> None:
        self.send_response(status)
        self.send_header("Content-Type", kind)
        self.send_header("Content-Length", str(len(data)))
        self.end_headers()
        if self.command != "HEAD":
            self.wfile.write(data)

    def bytes(self, count: int) -> None:
        start, end = 0, count
        asked = self.headers.get("Range", "")
        if asked.startswith("bytes=") and "," not in asked:
            first, _, last = asked[6:].partition("-")
            if first:
                start, end = int(first), min(int(last) + 1, count) if last else count
            else:
                start = max(count - int(last), 0)
            if start >= count:
                self.send_response(416)
                self.send_header("Content-Range", f"bytes */{count}")
                self.send_header("Content-Length", "0")
                self.end_headers()
                return
            self.send_response(206)
            self.send_header("Content-Range", f"bytes {start}-{end - 1}/{count}")
        else:
            self.send_response(200)
        self.send_header("Accept-Ranges", "bytes")
        self.send_header("Content-Type", "application/octet-stream")
        self.send_header("Content-Length", str(end - start))
        self.end_headers()
        while self.command != "HEAD" and start < end:
            at = start % len(BLOCK)
            piece = BLOCK[at : at + end - start]
            self.wfile.write(piece)
            start += len(piece)

    def sink(self) -> None:
        count, check = 0, 0
        for piece in self.body():
            count += len(piece)
            check = zlib.crc32(piece, check)
        self.reply(b"%d %08x\n" % (count, check))

    def socket(self) -> None:
        """The handshake of RFC 6455, and then each message sent back."""
        key = self.headers["Sec-WebSocket-Key"] + "258EAFA5-E914-47DA-95CA-C5AB0DC85B11"
        self.send_response(101)
        self.send_header("Upgrade", "websocket")
        self.send_header("Connection", "Upgrade")
        self.send_header("Sec-WebSocket-Accept", base64.b64encode(hashlib.sha1(key.encode()).digest()).decode())
        self.end_headers()
        self.close_connection = True
        message, kind = b"", 1
        while len(head := self.rfile.read(2)) == 2:
            length = head[1] & 127
            if length == 126:
                (length,) = struct.unpack(">H", self.rfile.read(2))
            elif length == 127:
                (length,) = struct.unpack(">Q", self.rfile.read(8))
            mask = self.rfile.read(4)
            data = self.rfile.read(length)
            data = bytes(a ^ b for a, b in zip(data, mask * (length // 4 + 1)))
            if head[0] & 15 == 8:
                self.wfile.write(b"\x88\x00")
                return
            kind = head[0] & 15 or kind
            message += data
            if head[0] & 128:
                size = len(message)
                self.wfile.write(bytes([128 | kind]))
                self.wfile.write(bytes([size]) if size < 126 else struct.pack(">BH", 126, size) if size < 65536 else struct.pack(">BQ", 127, size))
                self.wfile.write(message)
                message = b""

    def git(self, path: str, query: str) -> None:
        """git's server, by the rules of CGI."""
        body = b"".join(self.body())
        words = dict(os.environ)
        words.update(
            GIT_PROJECT_ROOT=str(FOLDER / "git"), GIT_HTTP_EXPORT_ALL="1", REMOTE_USER="somebody", REMOTE_ADDR="127.0.0.1",
            PATH_INFO=path, QUERY_STRING=query, REQUEST_METHOD=self.command, CONTENT_TYPE=self.headers.get("Content-Type", ""),
            CONTENT_LENGTH=str(len(body)), HTTP_CONTENT_ENCODING=self.headers.get("Content-Encoding", ""),
            GIT_PROTOCOL=self.headers.get("Git-Protocol", ""),
        )
        ran = subprocess.run(["git", "http-backend"], input=body, env=words, stdout=subprocess.PIPE, check=False)
        head, _, data = ran.stdout.partition(b"\r\n\r\n")
        fields = [line.split(": ", 1) for line in head.decode().split("\r\n") if ": " in line]
        status = next((int(value.split()[0]) for name, value in fields if name == "Status"), 200)
        self.send_response(status)
        for name, value in fields:
            if name not in ("Status", "Content-Length"):
                self.send_header(name, value)
        self.send_header("Content-Length", str(len(data)))
        self.end_headers()
        self.wfile.write(data)

    def files(self, path: str) -> None:
        for _ in self.body():
            pass
        file = (FOLDER / "files" / path).resolve()
        if not file.is_relative_to((FOLDER / "files").resolve()) or not file.is_file():
            self.reply(b"not here\n", status=404)
            return
        modified = self.date_time_string(int(file.stat().st_mtime))
        if self.headers.get("If-Modified-Since") == modified:
            self.send_response(304)
            self.end_headers()
            return
        data = file.read_bytes()
        self.send_response(200)
        self.send_header("Last-Modified", modified)
        self.send_header("Content-Length", str(len(data)))
        self.end_headers()
        if self.command != "HEAD":
            self.wfile.write(data)

    def answer(self) -> None:
        path, _, query = self.path.partition("?")
        match path.strip("/").split("/"):
            case ["bytes", count]:
                self.bytes(int(count))
            case ["sink"]:
                self.sink()
            case ["page"]:
                pictures = "\n".join(f'<img src="/picture/{side}" alt="{side}">' for side in range(20, 140, 10))
                self.reply((PAGE % pictures).encode(), "text/html")
            case ["picture", side]:
                self.reply(picture(int(side)), "image/png")
            case ["ws"]:
                self.socket()
            case ["report"]:
                with open(FOLDER / "reports", "ab") as reports:
                    reports.write(b"".join(self.body()) + b"\n")
                self.reply(b"told\n")
            case ["expect"]:
                for _ in self.body():
                    pass
                self.reply(b"yes\n" if "Expect" in self.headers else b"no\n")
            case ["git", *_]:
                self.git(path.removeprefix("/git"), query)
            case ["files", *rest]:
                self.files("/".join(rest))
            case _:
                for _ in self.body():
                    pass
                self.reply(b"hello\n")

    do_GET = do_HEAD = do_POST = do_PUT = answer


class Server(ThreadingHTTPServer):
    daemon_threads = True
    request_queue_size = 128

    def handle_error(self, request, address) -> None:
        # A client that goes away early is none of the origin's faults.
        pass


class SecureServer(Server):
    context = None

    def finish_request(self, request, address) -> None:
        # The handshake is made in the connection's own thread.
        request.settimeout(60)
        with self.context.wrap_socket(request, server_side=True) as link:
            super().finish_request(link, address)


def main() -> None:
    plain = Server(("127.0.0.1", 0), Handler)
    secure = SecureServer(("127.0.0.1", 0), Handler)
    secure.context = ssl.SSLContext(ssl.PROTOCOL_TLS_SERVER)
    secure.context.load_cert_chain(FOLDER / "cert.pem", FOLDER / "key.pem")
    threading.Thread(target=secure.serve_forever, daemon=True).start()
    (FOLDER / "ports.new").write_text(f"{plain.server_port} {secure.server_port}\n")
    (FOLDER / "ports.new").rename(FOLDER / "ports")
    plain.serve_forever()


main()
