#!/usr/bin/env python3
"""Runs the program of examples/http_service in the folder of its crate, asks each of its routes on the loopback address,
takes 200 profiles beside two busy clients, and stops it. It prints each answer that is not the expected one; the status
is 0 if there is none."""

import subprocess
import sys
import threading
import urllib.error
import urllib.request
from typing import NamedTuple


class Row(NamedTuple):
    """A request, and the status and the beginning of the body that answer it."""

    method: str
    path: str
    body: bytes
    status: int
    begins: bytes


# A key of one letter is billed 25 bytes, and a body of 100 bytes 124; `greeting` 32 and `hello` 29.
ROWS = (
    Row("PUT", "/tenants/acme/greeting", b"hello", 204, b""),
    Row("GET", "/tenants/acme/greeting", b"", 200, b"hello"),
    Row("GET", "/tenants/acme/other", b"", 404, b"no such key\n"),
    Row("PUT", "/tenants/small/a", b"x" * 100, 413, b"149 bytes exceed a limit of 100\n"),
    Row("PUT", "/tenants/nobody/a", b"x", 404, b"there is no account\n"),
    Row("GET", "/pages/acme/greeting", b"", 200, b"<h1>acme/greeting</h1><p>5 bytes</p>\n"),
    Row("GET", "/pages/acme/other", b"", 404, b"no such page\n"),
    Row("GET", "/metrics", b"", 200, b"# HELP store_bytes The bytes of all tenants.\n# TYPE store_bytes gauge\nstore_bytes 61\n"),
    Row("GET", "/memory.folded", b"", 200, b"State;pages;BoundedCache "),
    Row("GET", "/memory.svg", b"", 200, b"<svg "),
    Row("GET", "/change.svg", b"", 200, b"no profile is kept\n"),
    Row("POST", "/profiles", b"", 200, b""),
    Row("GET", "/change.svg", b"", 200, b"<svg "),
    Row("GET", "/other", b"", 404, b"no such route\n"),
)
PROFILES = 200


def ask(address: str, method: str, path: str, body: bytes = b"") -> tuple[int, bytes]:
    """The status and the body that answer a request."""
    request = urllib.request.Request(f"http://{address}{path}", body or None, method=method)
    try:
        with urllib.request.urlopen(request, timeout=20) as response:
            return response.status, response.read()
    except urllib.error.HTTPError as error:
        return error.code, error.read()


def wrong_rows(address: str) -> list[str]:
    """What differs from the rows."""
    found = ((row, ask(address, row.method, row.path, row.body)) for row in ROWS)
    return [f"{row.method} {row.path}: {status} {text[:200]!r}" for row, (status, text) in found if status != row.status or not text.startswith(row.begins)]


def keep_busy(address: str, name: str, done: threading.Event) -> None:
    """Puts and gets bodies until it is told to end."""
    number = 0
    while not done.is_set():
        number += 1
        ask(address, "PUT", f"/tenants/acme/{name}{number % 50}", b"y" * 64)
        ask(address, "GET", f"/pages/acme/{name}{number % 50}")


def missing_profiles(address: str) -> int:
    """How many profiles lack the state while two clients are busy."""
    done = threading.Event()
    clients = [threading.Thread(target=keep_busy, args=(address, name, done)) for name in "ab"]
    for client in clients:
        client.start()
    texts = [ask(address, "GET", "/memory.folded")[1] for _ in range(PROFILES)]
    done.set()
    for client in clients:
        client.join()
    return sum(b"\nState;stored;Book;accounts" not in text for text in texts)


def main() -> int:
    with subprocess.Popen(["rt", "run"], stdout=subprocess.PIPE, stderr=subprocess.DEVNULL, stdin=subprocess.DEVNULL, text=True) as service:
        address = service.stdout.readline().strip()
        if not address.startswith("127.0.0.1:"):
            print(f"no address, but {address!r}")
            return 1
        wrong = wrong_rows(address)
        missing = missing_profiles(address)
        if missing:
            wrong.append(f"{missing} of {PROFILES} profiles lack the state")
        if ask(address, "POST", "/stop") != (200, b"stopping\n"):
            wrong.append("it does not stop")
            service.kill()
    print(*wrong, sep="\n", end="\n" if wrong else "")
    return 1 if wrong or service.returncode else 0


if __name__ == "__main__":
    sys.exit(main())
