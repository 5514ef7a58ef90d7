#!/usr/bin/env python3
"""Tries the gateway that tools/cups-gateway/setup puts in place, from `lp` to the statement: with real cupsd, PAM, nginx and filters.

    sudo tests/front.py                     all tests; the last line is `N passed, M failed`
    sudo tests/front.py -k jam -k forged    those whose names have one of these words
    sudo tests/front.py --transcript        shows at the end what a user and the office see of a job, as the guide has it

It runs on a copy of this machine that it throws away: in namespaces of its own for mounts, processes and the network, which has only
loopback, with a layer in memory above the machine's files. So it needs root, and changes nothing. The printer is a small program
(tests/gateway/printer.py). If a package of Debian is missing, it names the package. PRINTD=FILE names another program than the built one.
"""
from __future__ import annotations

import argparse
import fcntl
import os
import shutil
import socket
import struct
import subprocess
import sys
import tempfile
import unittest
from pathlib import Path

TESTS = Path(__file__).resolve().parent
TOP = TESTS.parent
INSIDE = "PRINT_RELEASE_FRONT"
NEEDED = {
    "/usr/bin/python3": "python3", "/usr/sbin/cupsd": "cups", "/usr/sbin/lpadmin": "cups-client", "/usr/bin/lp": "cups-client",
    "/usr/lib/cups/filter/pdftopdf": "cups-filters", "/usr/bin/qpdf": "qpdf", "/usr/bin/gs": "ghostscript", "/usr/sbin/nginx": "nginx",
    "/usr/bin/openssl": "openssl", "/usr/sbin/useradd": "passwd", "/usr/sbin/faillock": "libpam-modules-bin", "/usr/bin/unshare": "util-linux",
    "/usr/sbin/runuser": "util-linux",
}
IFF_UP, SIOCSIFFLAGS = 0x1, 0x8914


def mount(*words: str) -> None:
    subprocess.run(["mount", *words], check=True)


def loopback() -> None:
    with socket.socket(socket.AF_INET, socket.SOCK_DGRAM) as any_socket:
        fcntl.ioctl(any_socket, SIOCSIFFLAGS, struct.pack("16sH14x", b"lo", IFF_UP))


def enter_copy(base: Path, printd: str) -> None:
    """Makes the machine's files with a layer in memory above them the root of this process. The layer is at an empty folder."""
    mount("-t", "tmpfs", "-o", "mode=755", "tmpfs", str(base))
    for name in ("above", "work", "root"):
        (base / name).mkdir()
    root = base / "root"
    mount("-t", "overlay", "overlay", "-o", f"lowerdir=/,upperdir={base}/above,workdir={base}/work", str(root))
    mount("--rbind", "/dev", str(root / "dev"))
    mount("-t", "proc", "proc", str(root / "proc"))
    mount("-t", "tmpfs", "-o", "mode=755", "tmpfs", str(root / "run"))
    mount("-t", "tmpfs", "-o", "mode=1777", "tmpfs", str(root / "tmp"))
    # the clone may be on another file system than the root, and so in no layer
    (root / str(TOP).lstrip("/")).mkdir(parents=True, exist_ok=True)
    mount("--bind", str(TOP), str(root / str(TOP).lstrip("/")))
    shutil.copy2(printd, root / "usr/local/bin/printd")
    (root / "usr/local/bin/printd").chmod(0o755)
    os.chroot(root)
    os.chdir("/")


def read_words() -> argparse.Namespace:
    words = argparse.ArgumentParser(description=__doc__, formatter_class=argparse.RawDescriptionHelpFormatter)
    words.add_argument("-k", action="append", dest="names", metavar="WORD", help="only tests with this word in their name; may be given again")
    words.add_argument("--transcript", action="store_true", help="show at the end what a user and the office see of a job")
    return words.parse_args()


def run_tests(words: argparse.Namespace) -> int:
    """Runs the tests on the copy, which this process is in."""
    import clients
    import machine
    from counted import run_counted

    loader = unittest.TestLoader()
    if words.names:
        loader.testNamePatterns = [f"*{name}*" for name in words.names]
    suite = loader.discover(str(TESTS / "whole_way"))
    way = clients.WholeWay.machine = machine.Machine()
    try:
        passed, failed = run_counted(suite)
    finally:
        way.close()
    if words.transcript:
        print("\n".join(clients.WholeWay.transcript))
    print(f"{passed} passed, {failed} failed", flush=True)
    return 1 if failed else 0


def main() -> int:
    words = read_words()
    sys.path[:0] = [str(TESTS / "gateway"), str(TESTS / "whole_way")]
    if INSIDE in os.environ:
        loopback()
        base, printd = os.environ[INSIDE].split(":", 1)
        enter_copy(Path(base), printd)
        return run_tests(words)
    missing = sorted({package for path, package in NEEDED.items() if not os.path.exists(path)})
    if missing:
        sys.exit(f"front: packages are missing: apt-get install --no-install-recommends {' '.join(missing)}")
    if os.geteuid() != 0:
        sys.exit("front: run it as root")
    from server import program

    environment = {"PATH": "/usr/local/sbin:/usr/local/bin:/usr/sbin:/usr/bin:/sbin:/bin", "LANG": "C.UTF-8", "PYTHONDONTWRITEBYTECODE": "1"}
    spaces = ["unshare", "--mount", "--net", "--pid", "--ipc", "--fork", "--kill-child", "--mount-proc"]
    with tempfile.TemporaryDirectory() as base:
        environment[INSIDE] = f"{base}:{program()}"
        return subprocess.call([*spaces, "/usr/bin/python3", str(Path(__file__).resolve()), *sys.argv[1:]], env=environment)


if __name__ == "__main__":
    sys.exit(main())
