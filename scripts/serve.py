#!/usr/bin/env python3
"""Serves real clients, is killed in mid-load, and gets the same requests again.

    scripts/serve.py PROGRAM [ROUNDS]

PROGRAM is the built program, ROUNDS how often it is killed: 30 times, unless it is said. Three stations send the requests
of a script of their own over HTTP, one with Python's `http.client`, one with `curl` where it is there, and one that
pipelines 16 requests over a socket. In each round the program is killed (SIGKILL) at some moment while they send; then it
is started again, and each station sends its last requests once more and goes on. Whatever the moments were,

- a request that was answered gets the same answer each time that it is sent again,
- no serial is drawn twice, and at the end the history has each station's requests, each once.

It works in a folder of its own, says in one line what it saw, and ends with status 1 where an answer was wrong. It is no
part of the gate: no proof speaks of a real socket.
"""

import http.client
import json
import os
import random
import re
import shutil
import socket
import subprocess
import sys
import tempfile
import threading
import time

EXAMPLES = os.path.join(os.path.dirname(os.path.abspath(__file__)), "..", "examples")
PORT = 18090
# a station sends so many of its last requests again
AGAIN = 20
ORDER = {"do": "order", "batch": "B1", "gtin": "00614141123452", "lot": "LOT1"}
ORDER |= {"expiry": "2027-12-31", "quantity": 1000, "case": 10, "pallet": 0}


def deed_of(station, number):
    """The deed of a station under a number: the planner draws, the lines declare."""
    if station == "P1":
        first = [ORDER, {"do": "start", "batch": "B1"}]
        return first[number - 1] if number <= len(first) else {"do": "draw", "batch": "B1", "count": 3}
    return {"do": "declare", "batch": "B1", "good": number, "spoiled": 0, "returned": 0}


def path_of(station, number):
    return f"/stations/{station}/requests/{number}"


class Lost(Exception):
    """No whole answer came."""


def ask_by_client(station, numbers):
    """Asks one after the other over one connection."""
    link = http.client.HTTPConnection("127.0.0.1", PORT, timeout=10)
    try:
        for number in numbers:
            link.request("POST", path_of(station, number), json.dumps(deed_of(station, number)))
            answer = link.getresponse()
            yield number, answer.status, answer.read().decode()
    except (OSError, http.client.HTTPException) as lost:
        raise Lost from lost
    finally:
        link.close()


def ask_by_curl(station, numbers):
    """Asks one after the other, each by a `curl` of its own."""
    for number in numbers:
        url = f"http://127.0.0.1:{PORT}{path_of(station, number)}"
        words = ["curl", "-s", "-m", "10", "-w", "\n%{http_code}", "-d", json.dumps(deed_of(station, number)), url]
        ran = subprocess.run(words, stdout=subprocess.PIPE, text=True)
        if ran.returncode:
            raise Lost
        body, status = ran.stdout.rsplit("\n", 1)
        yield number, int(status), body


def ask_pipelined(station, numbers):
    """Asks 16 at once over one connection."""
    numbers = list(numbers)
    try:
        with socket.create_connection(("127.0.0.1", PORT), timeout=10) as link:
            rest = b""
            for at in range(0, len(numbers), 16):
                some = numbers[at : at + 16]
                for number in some:
                    body = json.dumps(deed_of(station, number)).encode()
                    head = f"POST {path_of(station, number)} HTTP/1.1\r\ncontent-length: {len(body)}\r\n\r\n"
                    rest_of = head.encode() + body
                    link.sendall(rest_of)
                for number in some:
                    while not (found := re.match(rb"HTTP/1.1 (\d+) .*?content-length: (\d+).*?\r\n\r\n", rest, re.S)) or len(
                        rest
                    ) < found.end() + int(found[2]):
                        piece = link.recv(1 << 16)
                        if not piece:
                            raise Lost
                        rest += piece
                    end = found.end() + int(found[2])
                    yield number, int(found[1]), rest[found.end() : end].decode()
                    rest = rest[end:]
    except OSError as lost:
        raise Lost from lost


class Seen:
    """What each request was answered so far, and how many answers were wrong."""

    def __init__(self):
        self.answers = {}
        self.wrong = 0
        self.lock = threading.Lock()

    def complain(self, what):
        print(f"WRONG: {what}", file=sys.stderr)
        self.wrong += 1

    def compare(self, station, number, status, body):
        with self.lock:
            first = self.answers.setdefault((station, number), (status, body))
            if (status, body) != first:
                self.complain(f"{station} {number} was answered {first}, and then {(status, body)}")
            if status != 200:
                self.complain(f"{station} {number} was refused: {status} {body}")

    def last(self, station):
        return max((number for name, number in self.answers if name == station), default=0)


def send(ask, station, more, seen):
    """Sends a station's last requests again, and so many more, until an answer is lost."""
    last = seen.last(station)
    try:
        for number, status, body in ask(station, range(max(1, last - AGAIN + 1), last + more + 1)):
            seen.compare(station, number, status, body)
    except Lost:
        pass


def start(program):
    """A server that answers."""
    serving = subprocess.Popen([program, "serve", str(PORT), "4", "1000000"])
    for _ in range(1000):
        try:
            socket.create_connection(("127.0.0.1", PORT), timeout=1).close()
            return serving
        except OSError:
            if serving.poll() is not None:
                sys.exit(f"the server ended with status {serving.returncode}")
            time.sleep(0.005)
    sys.exit("the server doesn't answer")


def main():
    if len(sys.argv) not in (2, 3):
        sys.exit(__doc__)
    program = os.path.realpath(sys.argv[1])
    rounds = int(sys.argv[2]) if len(sys.argv) == 3 else 30
    site = os.path.realpath(os.path.join(EXAMPLES, "site.toml"))
    by_curl = ask_by_curl if shutil.which("curl") else ask_by_client
    clients = {"P1": ask_by_client, "L1": by_curl, "L2": ask_pipelined}
    seen, killed = Seen(), 0
    with tempfile.TemporaryDirectory(prefix="packsite-serve-") as folder:
        os.chdir(folder)
        subprocess.run([program, "init", site], check=True, stdout=subprocess.DEVNULL)
        serving = start(program)
        # the batch is started before the lines declare
        send(ask_by_client, "P1", 2, seen)
        for _ in range(rounds):
            threads = [
                threading.Thread(target=send, args=(ask, station, 100_000, seen)) for station, ask in clients.items()
            ]
            for thread in threads:
                thread.start()
            time.sleep(0.05 + 0.25 * random.random())
            serving.kill()
            killed += serving.wait() < 0
            for thread in threads:
                thread.join()
            serving = start(program)
        for station, ask in clients.items():
            send(ask, station, 32, seen)
        serving.kill()
        serving.wait()
        entries = 0
        while True:
            log = subprocess.run([program, "log", str(entries + 1), "10000"], check=True, stdout=subprocess.PIPE, text=True)
            lines = log.stdout.splitlines()
            for line in lines:
                entries += 1
                _, station, number = line.split()[:3]
                if (station, int(number)) not in seen.answers:
                    # it was sent, and its answer was lost for good
                    seen.answers[(station, int(number))] = None
            if len(lines) < 10000:
                break
        os.chdir("/")
    if entries != len(seen.answers):
        seen.complain(f"{entries} entries, and {len(seen.answers)} requests that were answered")
    drawn = [
        serial
        for answer in seen.answers.values()
        if answer
        for serial in json.loads(answer[1]).get("serials", [])
    ]
    if len(set(drawn)) != len(drawn):
        seen.complain("a serial was drawn twice")
    answered = sum(answer is not None for answer in seen.answers.values())
    print(
        f"{rounds} rounds, {killed} kills: {answered} requests of {len(clients)} stations answered, {entries} entries,"
        f" {len(drawn)} serials, {seen.wrong} wrong"
    )
    sys.exit(1 if seen.wrong else 0)


main()
