"""Clients at a port, by the system's table, and what status says of them."""

import contextlib
import re
import signal
import socket
import unittest
from pathlib import Path

from aclproxyctl.service import Service as Serving
from aclproxyctl.service import service_of
from aclproxyctl.sockets import Clients, add_table, clients_of
from tests.common import InFolder, ctl, needs_program
from tests.loopback import TIME, Service, wait_for

# Port 3128 is 0C38. One listening socket with two connections in its queue (2 of 3 that are open), one connection of another
# port, one on the other side of which 3128 stands, and one that is being closed.
TABLE = """  sl  local_address rem_address   st tx_queue rx_queue tr tm->when retrnsmt   uid  timeout inode
   0: 00000000:0C38 00000000:0000 0A 00000000:00000002 00:00000000 00000000     0        0 111 1 0000000000000000 100 0 0 10 0
   1: 0100007F:0C38 0100007F:A001 01 00000000:00000000 00:00000000 00000000     0        0 112 1 0000000000000000 20 4 30 10 -1
   2: 0100007F:0C38 0100007F:A002 01 00000000:00000000 00:00000000 00000000     0        0 0 1 0000000000000000 20 4 30 10 -1
   3: 0100007F:0C38 0100007F:A003 08 00000000:00000007 00:00000000 00000000     0        0 0 1 0000000000000000 20 4 30 10 -1
   4: 0100007F:0C39 0100007F:A004 01 00000000:00000000 00:00000000 00000000     0        0 113 1 0000000000000000 20 4 30 10 -1
   5: 0100007F:A001 0100007F:0C38 01 00000000:00000000 00:00000000 00000000     0        0 114 1 0000000000000000 20 4 30 10 -1
   6: 0100007F:0C38 0100007F:A005 06 00000000:00000000 00:00000000 00000000     0        0 0 1 0000000000000000 20 4 30 10 -1
"""


class Tables(unittest.TestCase):
    def test_table(self) -> None:
        clients = Clients()
        add_table(clients, TABLE, 3128)
        self.assertEqual(clients, Clients(connected=3, queued=2, listening=True))
        # The one that was accepted has a worker, whether there are one or eight; the others have none.
        self.assertEqual([(clients.workers_in_use(workers), clients.waiting(workers)) for workers in (1, 8)], [(1, 2), (1, 2)])
        other = Clients()
        add_table(other, TABLE, 3129)
        self.assertEqual(other, Clients(connected=1))

    def test_workers(self) -> None:
        """Nine connections were accepted, and three stand in the queue: of eight workers all are in use, and four clients wait."""
        clients = Clients(connected=12, queued=3)
        self.assertEqual((clients.workers_in_use(8), clients.waiting(8)), (8, 4))

    def test_a_real_queue(self) -> None:
        with socket.socket() as listener:
            listener.bind(("127.0.0.1", 0))
            listener.listen(8)
            port = listener.getsockname()[1]
            links = [socket.create_connection(("127.0.0.1", port), TIME) for _ in range(5)]
            accepted = [listener.accept()[0] for _ in range(2)]
            self.assertEqual(clients_of(port), Clients(connected=5, queued=3, listening=True))
            for link in (*links, *accepted):
                link.close()
        self.assertIsNone(clients_of(port, "none"))


@needs_program
class Status(InFolder):
    def test_workers_in_use(self) -> None:
        """Two tunnels have the two workers, and three clients that come then have none. Links give way after ten seconds at the earliest."""
        conf = self.file("conf", ["http_access allow all"])
        with contextlib.ExitStack() as links, Service(self.folder, conf, "--workers", "2") as service:
            service.told("READY")
            self.assertRegex(
                ctl("status", str(service.journal)).out,
                rf"(?m)^workers: +2, of these 0 in use\nclients: +0 connected at port {service.port}; none waits for a worker$",
            )
            origin = links.enter_context(socket.socket())
            origin.bind(("127.0.0.1", 0))
            origin.listen(8)
            for _ in range(2):
                tunnel = links.enter_context(socket.create_connection(("127.0.0.1", service.port), TIME))
                tunnel.sendall(f"CONNECT 127.0.0.1:{origin.getsockname()[1]} HTTP/1.0\r\n\r\n".encode())
                self.assertIn(b" 200 ", tunnel.recv(1000))
            for _ in range(3):
                links.enter_context(socket.create_connection(("127.0.0.1", service.port), TIME))
            # What is being accepted just then counts at the next look.
            wanted = r"(?m)^workers: +2, of these 2 in use\nclients: +5 connected at port [0-9]+; 3 wait for a worker, of these [0-3] in the accept queue$"
            wait_for(lambda: re.search(wanted, ctl("status", str(service.journal)).out) is not None)
            (run,) = service.runs()
            self.assertEqual((run / "service.json").stat().st_mode & 0o777, 0o600)
            links.close()
            service.process.send_signal(signal.SIGTERM)
            self.assertEqual(service.ended(), 0)
        self.assertNotIn("workers:", ctl("status", str(service.journal)).out)

    def test_a_process_of_another_program(self) -> None:
        """The number of a server that was killed may be another's."""
        self.file("run/service.json", Serving(1, 3128, 8).text())
        self.assertIsNone(service_of(self.folder / "run"))
        self.file("run/service.json", b"{}")
        self.assertIsNone(service_of(self.folder / "run"))
        self.assertIsNone(service_of(Path("/none")))


if __name__ == "__main__":
    unittest.main()
