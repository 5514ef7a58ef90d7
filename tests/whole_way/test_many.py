"""20 clients at once, beside one that is silent, one that sends its head a byte a second and one its document."""
from __future__ import annotations

import contextlib
import socket
import ssl
import threading
import time

from clients import Client, WholeWay, figure
from documents import pdf
from machine import CERTIFICATE, wait_for

from ipp import Operation

HEAD = b"POST /printers/release HTTP/1.1\r\nHost: localhost\r\nContent-Type: application/ipp\r\nContent-Length: 500\r\n"
# What slow clients send: at once, and then a byte a second.
SLOW = ((b"", b""), (b"", HEAD + b"X: " + b"a" * 1000), (HEAD + b"\r\n", bytes(500)))
CLIENTS, MOST_SECONDS = 20, 1.0


class Many(WholeWay):
    def setUp(self) -> None:
        super().setUp()
        self.is_open = True

    def keep(self, at_once: bytes, drops: bytes) -> None:
        """Keeps a connection, and makes another one when nginx has ended it."""
        context = ssl.create_default_context(cafile=CERTIFICATE)
        while self.is_open:
            with socket.create_connection(("127.0.0.1", 443)) as plain, context.wrap_socket(plain, server_hostname="localhost") as connection:
                connection.settimeout(1)
                with contextlib.suppress(OSError):
                    connection.sendall(at_once)
                    place = 0
                    while self.is_open and self.lasts(connection):
                        connection.sendall(drops[place:place + 1])
                        place += 1

    def lasts(self, connection: ssl.SSLSocket) -> bool:
        """Whether the connection is still there after a second."""
        try:
            return connection.recv(1) != b""
        except socket.timeout:
            return True

    def timed(self, client: Client, together: threading.Barrier, seconds: list[float], title: str) -> None:
        together.wait()
        begun = time.monotonic()
        reply = client.print(title, pdf(3), name="alice")
        if reply.is_success:
            seconds.append(time.monotonic() - begun)

    def at_once(self, title: str) -> list[float]:
        """How long each of the clients waits that send a job at the same moment."""
        seconds: list[float] = []
        used = self.machine.cupsd.processor_seconds()
        together = threading.Barrier(CLIENTS)
        threads = [threading.Thread(target=self.timed, args=(Client("alice"), together, seconds, title)) for _ in range(CLIENTS)]
        for thread in threads:
            thread.start()
        for thread in threads:
            thread.join()
        self.assertEqual(len(seconds), CLIENTS, "some jobs were refused")
        used = self.machine.cupsd.processor_seconds() - used
        print(f"figure: {title}: {CLIENTS} jobs take {used:.2f} s of cupsd's processor time, longest wait {max(seconds):.2f} s", flush=True)
        return seconds

    def one_by_one(self) -> list[float]:
        seconds = []
        for _ in range(40):
            begun = time.monotonic()
            self.assertEqual(Client("alice").status(Operation.VALIDATE_JOB, name="alice"), 0)
            seconds.append(time.monotonic() - begun)
            time.sleep(0.25)
        return seconds

    def test_nobody_else_waits_over_a_second(self) -> None:
        alone = self.at_once("alone")
        slow = [threading.Thread(target=self.keep, args=words) for words in SLOW]
        for thread in slow:
            thread.start()
        try:
            time.sleep(2)
            # other work of the machine makes waits longer: the best of three counts
            together = min((self.at_once(f"together {turn}") for turn in range(3)), key=max)
            begun = time.monotonic()
            wait_for("all jobs to be held", lambda: len(self.titles("alice")) == 4 * CLIENTS, 300)
            print(f"figure: the last of {4 * CLIENTS} jobs was held {time.monotonic() - begun:.1f} s after CUPS had taken it")
            probes = self.one_by_one()
        finally:
            self.is_open = False
            for thread in slow:
                thread.join()
        figure("20 at once", alone)
        figure("20 at once beside a silent and two dripping clients", together)
        figure("one after the other beside them", probes)
        # with much other work the machine is slow without them too: then they may add as much
        most = MOST_SECONDS if max(alone) < MOST_SECONDS else max(alone) + MOST_SECONDS
        self.assertLess(max(together + probes), most)
