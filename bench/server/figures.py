#!/usr/bin/env python3
"""figures.py PROGRAM [FOLDER [SECONDS]]: requests a second of a built packsite that serves stations on this machine.

In one run it serves 1, 4 and 16 connections, one request after the other and 16 pipelined, once with its journal on a
real file (FOLDER, /var/tmp if it is left out) and once in a memory-backed folder, where a sync costs nothing. Beside them
stands how many records of that size a second the same disk takes with two syncs each, which is what a journal without
groups could do at most. Each connection is that of a line station of its own, in a process of its own, which sends
declarations under its numbers, reads every answer, and makes its next requests while it waits. Each row takes SECONDS, 3
if they are left out. No figure is a promise.
"""

import json
import multiprocessing
import os
import shutil
import socket
import subprocess
import sys
import tempfile
import time

CONNECTIONS = (1, 4, 16)
PIPELINED = (1, 16)
PORT = 18080
MEMORY = "/dev/shm"
# as long as a record of one declaration, and the byte that makes it count
RECORD, GATE = b"r" * 96, b"g"

# what each declaration is answered
ACCEPTED = b'HTTP/1.1 200 OK\r\ncontent-length: 11\r\ncontent-type: application/json\r\n\r\n{"ok":true}'

SITE = """[site]
gln = "0614141000012"
prefix = "0614141"
extension = 1
reference = 1
offset = "+00:00"

[[product]]
gtin = "00614141123452"
prefix_length = 7
serial_length = 10

[[station]]
name = "P1"
role = "planner"
"""


def site_text():
    lines = (f'\n[[station]]\nname = "L{line}"\nrole = "line"\n' for line in range(1, max(CONNECTIONS) + 1))
    return SITE + "".join(lines)


def make_site(program, folder):
    """A site with a started batch, and a line for each connection."""
    with open(os.path.join(folder, "site.toml"), "w") as file:
        file.write(site_text())
    order = {"do": "order", "batch": "B1", "gtin": "00614141123452", "lot": "LOT1"}
    order |= {"expiry": "2027-12-31", "quantity": 10, "case": 10, "pallet": 0}
    deeds = (order, {"do": "start", "batch": "B1"})
    lines = "".join(
        json.dumps({"station": "P1", "number": number, "deed": deed}) + "\n" for number, deed in enumerate(deeds, 1)
    )
    subprocess.run([program, "init", "site.toml"], cwd=folder, check=True, stdout=subprocess.DEVNULL)
    ran = subprocess.run([program, "run"], cwd=folder, check=True, input=lines, stdout=subprocess.PIPE, text=True)
    if ran.stdout.count('"ok":true') != len(deeds):
        sys.exit(f"the site wasn't made: {ran.stdout}")


def connect(port):
    """A connection, as soon as the port is served."""
    for _ in range(500):
        try:
            link = socket.create_connection(("127.0.0.1", port))
            link.setsockopt(socket.IPPROTO_TCP, socket.TCP_NODELAY, 1)
            return link
        except ConnectionRefusedError:
            time.sleep(0.01)
    sys.exit("the port isn't served")


def request(station, number):
    body = b'{"do":"declare","batch":"B1","good":%d,"spoiled":0,"returned":0}' % (number % 1000)
    head = b"POST /stations/%s/requests/%d HTTP/1.1\r\ncontent-length: %d\r\n\r\n" % (station, number, len(body))
    return head + body


def requests(station, number, count):
    return b"".join(request(station, number + later) for later in range(count))


def read_answers(link, count):
    """Reads so many answers, each of which must be an acceptance."""
    answers, length = b"", count * len(ACCEPTED)
    while len(answers) < length:
        piece = link.recv(1 << 16)
        if not piece:
            sys.exit("the connection was closed")
        answers += piece
        if not (count * ACCEPTED).startswith(answers):
            sys.exit(f"refused: {answers!r}")


def station(port, line, pipelined, seconds, told):
    """Sends requests for so long, so many at once, and tells how many were answered in which time."""
    link = connect(port)
    name, number = b"L%d" % line, 1
    coming = requests(name, number, pipelined)
    began = time.monotonic()
    while time.monotonic() - began < seconds:
        link.sendall(coming)
        number += pipelined
        coming = requests(name, number, pipelined)
        read_answers(link, pipelined)
    told.put((number - 1, time.monotonic() - began))
    link.close()


def serve(program, where, connections, pipelined, seconds):
    """Requests a second over so many connections."""
    folder = tempfile.mkdtemp(prefix="packsite-serve-", dir=where)
    try:
        make_site(program, folder)
        words = [program, "serve", str(PORT), str(connections), str(connections)]
        served = subprocess.Popen(words, cwd=folder)
        told = multiprocessing.Queue()
        stations = [
            multiprocessing.Process(target=station, args=(PORT, line, pipelined, seconds, told))
            for line in range(1, connections + 1)
        ]
        for each in stations:
            each.start()
        answered = [told.get(timeout=seconds + 60) for _ in stations]
        for each in stations:
            each.join()
        if served.wait(60) != 0:
            sys.exit(f"packsite ended with status {served.returncode}")
        return sum(count / took for count, took in answered)
    finally:
        shutil.rmtree(folder)


def records(where, seconds):
    """Records a second that the disk takes with two syncs each."""
    with tempfile.NamedTemporaryFile(dir=where) as file:
        handle, count, place = file.fileno(), 0, 0
        began = time.monotonic()
        while time.monotonic() - began < seconds:
            for piece in (RECORD, GATE):
                os.pwrite(handle, piece, place)
                os.fdatasync(handle)
                place += len(piece)
            count += 1
        return count / (time.monotonic() - began)


def main():
    if len(sys.argv) not in (2, 3, 4):
        sys.exit(__doc__)
    program = os.path.realpath(sys.argv[1])
    real = sys.argv[2] if len(sys.argv) > 2 else "/var/tmp"
    seconds = float(sys.argv[3]) if len(sys.argv) > 3 else 3
    for what, where in (("on a file", real), ("in memory", MEMORY)):
        limit = records(where, seconds)
        print(f"{what}: the disk takes {limit:,.0f} records a second with two syncs each", flush=True)
        for pipelined in PIPELINED:
            for connections in CONNECTIONS:
                rate = serve(program, where, connections, pipelined, seconds)
                how = "one by one" if pipelined == 1 else f"{pipelined} pipelined"
                print(
                    f"{what}: {connections:3} connections, {how:12} {rate:10,.0f} requests a second,"
                    f" {rate / limit:6.2f} of the disk's records",
                    flush=True,
                )


if __name__ == "__main__":
    main()
