"""What tests over the loopback share: free ports, an origin, the service with a socket as systemd's, and a Squid."""

import array
import contextlib
import http.client
import http.server
import os
import random
import socket
import subprocess
import sys
import threading
import time
from pathlib import Path
from typing import Callable, Iterator, Optional

from tests.common import LAUNCHER

TIME = 20.0
# What each Squid of the tests has.
SQUID = [
    "cache deny all", "shutdown_lifetime 0 seconds", "visible_hostname alike", "connect_timeout 2 seconds", "icp_port 0",
    "max_filedescriptors 1024", "pinger_enable off", "dns_nameservers 127.0.0.1", "dns_retransmit_interval 1 second", "dns_timeout 2 seconds",
]
# Starts the words behind the first with the file of that number as file 3.
HANDS_OVER = "import os, sys; os.dup2(int(sys.argv[1]), 3); os.environ['LISTEN_PID'] = str(os.getpid()); os.execv(sys.argv[2], sys.argv[2:])"


def free_port() -> int:
    """A port at which nobody listens, outside of those that the system gives to clients."""
    while True:
        port = random.randrange(20000, 30000)
        with socket.socket() as listener, contextlib.suppress(OSError):
            listener.bind(("0.0.0.0", port))
            return port


def has_ended(process: int) -> bool:
    """Whether a process is gone, or waits for nothing but its parent's look at its status."""
    try:
        return ") Z " in Path(f"/proc/{process}/stat").read_text()
    except FileNotFoundError:
        return True


def wait_for(condition: Callable[[], bool]) -> None:
    deadline = time.monotonic() + TIME
    while not condition():
        if time.monotonic() > deadline:
            raise AssertionError("it has not come about")
        time.sleep(0.02)


class Origin(http.server.BaseHTTPRequestHandler):
    """An origin that says hello to everything."""

    protocol_version = "HTTP/1.1"

    def do_GET(self) -> None:
        self.send_response(200)
        self.send_header("Content-Length", "5")
        self.end_headers()
        self.wfile.write(b"hello")

    do_POST = do_GET

    def log_message(self, format: str, *args: object) -> None:
        pass


@contextlib.contextmanager
def origin() -> Iterator[int]:
    with http.server.ThreadingHTTPServer(("127.0.0.1", 0), Origin) as server:
        server.daemon_threads = True
        thread = threading.Thread(target=server.serve_forever, kwargs={"poll_interval": 0.05})
        thread.start()
        try:
            yield int(server.server_address[1])
        finally:
            server.shutdown()
            thread.join()


@contextlib.contextmanager
def squid(folder: Path, lines: list[str], port: int, begun_in: Optional[Path] = None, log: str = "none") -> Iterator[None]:
    """A Squid over these lines. Where it begins as root it goes on as a user of its own, who has to be let into the folder."""
    conf = folder / "squid.conf"
    own = [f"pid_filename {folder}/pid", f"cache_log {folder}/cache.log", f"coredump_dir {folder}", f"hosts_file {folder}/hosts"]
    conf.write_text("\n".join([*SQUID, f"access_log {log}", *own, *lines]) + "\n")
    with open(folder / "said", "wb") as said, subprocess.Popen(["squid", "-N", "-f", str(conf)], stdout=said, stderr=said, cwd=begun_in) as process:
        try:
            for _ in range(150):
                with contextlib.suppress(OSError), socket.create_connection(("127.0.0.1", port), 1):
                    break
                if process.poll() is not None:
                    raise AssertionError(f"squid has ended: {(folder / 'said').read_text()}")
                time.sleep(0.2)
            yield
        finally:
            process.terminate()


def ask(port: int, client: str, request: str, tunnelled: str = "") -> bytes:
    """What a client with this address gets for a request, and for another one through the tunnel that it asked for."""
    got = b""
    with socket.create_connection(("127.0.0.1", port), TIME, source_address=(client, 0)) as link:
        link.sendall(request.encode())
        if tunnelled:
            while b"\r\n\r\n" not in got:
                got += link.recv(65536)
            link.sendall(tunnelled.encode())
        while more := link.recv(65536):
            got += more
    return got


class Service:
    """The tool's `run` under a socket as systemd's."""

    def __init__(
        self,
        folder: Path,
        conf: str,
        *options: str,
        abstract: bool = False,
        port: Optional[int] = None,
        listen: Optional[str] = None,
        handed: Optional[int] = None,
    ) -> None:
        self.port = port or free_port()
        self.journal = folder / "journal"
        self.socket = socket.socket(socket.AF_UNIX, socket.SOCK_DGRAM)
        name = f"@aclproxyctl-test-{os.getpid()}-{self.port}" if abstract else str(folder / "notify")
        if not abstract and os.path.exists(name):
            os.unlink(name)
        self.socket.bind("\0" + name[1:] if abstract else name)
        self.socket.settimeout(TIME)
        self.errors = open(folder / "errors", "wb")
        self.folder = folder
        # The files that systemd was asked to keep.
        self.files: list[int] = []
        place = ["--listen", listen] if listen is not None else ["--port", str(self.port)]
        command = [sys.executable, str(LAUNCHER), "run", conf, *place, "--journal", str(self.journal), "--workers", "8", *options]
        env = {**os.environ, "NOTIFY_SOCKET": name, "TZ": "UTC"}
        if handed is not None:
            # As systemd hands over a socket that it has kept.
            command = [sys.executable, "-c", HANDS_OVER, str(handed), *command]
            env.update({"LISTEN_FDS": "1", "LISTEN_FDNAMES": "port"})
        self.process = subprocess.Popen(
            command, stdin=subprocess.DEVNULL, stdout=subprocess.DEVNULL, stderr=self.errors, env=env, pass_fds=() if handed is None else (handed,)
        )

    def __enter__(self) -> "Service":
        return self

    def __exit__(self, *fault: object) -> None:
        if self.process.poll() is None:
            self.process.kill()
            self.process.wait()
        self.errors.close()
        self.socket.close()

    def told(self, key: str) -> dict[str, str]:
        """The next message to systemd that has this key."""
        while True:
            try:
                text, more, *_ = self.socket.recvmsg(4096, socket.CMSG_SPACE(4))
                for _, _, found in more:
                    self.files += array.array("i", found)
                lines = text.decode().split("\n")
            except TimeoutError:
                raise AssertionError(f"no message with {key}; status {self.process.poll()}; said {self.said()}") from None
            message = dict(line.split("=", 1) for line in lines)
            if key in message:
                return message

    def ended(self) -> int:
        return self.process.wait(TIME)

    def said(self) -> str:
        return (self.folder / "errors").read_text()

    def runs(self) -> list[Path]:
        return sorted(path for path in self.journal.iterdir() if path.is_dir())

    def child(self, name: str) -> int:
        """The process of this name that the service started."""
        listed = Path(f"/proc/{self.process.pid}/task/{self.process.pid}/children").read_text().split()
        for number in listed:
            if Path(f"/proc/{number}/comm").read_text().strip() == name:
                return int(number)
        raise AssertionError(f"no child {name} among {listed}")

    def get(self, target: str, method: str = "GET") -> tuple[int, bytes]:
        connection = http.client.HTTPConnection("127.0.0.1", self.port, timeout=TIME)
        connection.request(method, target)
        reply = connection.getresponse()
        body = reply.read()
        connection.close()
        return reply.status, body
