#!/usr/bin/env python3
"""Kills a run of packsite at any moment of a long script, hundreds of times, and repeats the lines each time.

    scripts/kill.py PROGRAM [ROUNDS]

PROGRAM is the built program, ROUNDS how often it is killed: 300 times, unless it is said. Each round sends the first
lines of the script, two more than the round before, and kills the program (SIGKILL) somewhere between its start and
its end. At last the whole script is sent once more, to its end. Whatever the moments were,

- a request that was answered gets the same answer each time that it is sent again,
- and no serial is drawn twice, which would show that a request was done a second time, or that its entry was lost.

It works in a folder of its own, says in one line what it saw, and ends with status 1 where an answer was wrong. It is
no part of the gate: no proof speaks of a real file.
"""

import json
import os
import random
import subprocess
import sys
import tempfile
import time

EXAMPLES = os.path.join(os.path.dirname(os.path.abspath(__file__)), "..", "examples")


def requests(count):
    """The lines of the script: a batch is ordered and started, and then serials are drawn, three at a time."""
    deeds = [
        {"do": "order", "batch": "B1", "gtin": "00614141123452", "lot": "LOT1"}
        | {"expiry": "2027-12-31", "quantity": 1000, "case": 10, "pallet": 0},
        {"do": "start", "batch": "B1"},
    ]
    while len(deeds) < count:
        deeds.append({"do": "draw", "batch": "B1", "count": 3})
    return [
        json.dumps({"station": "P1", "number": number, "deed": deed})
        for number, deed in enumerate(deeds, 1)
    ]


class Seen:
    """What was answered so far, and how many answers were wrong."""

    def __init__(self):
        self.answers = {}
        self.wrong = 0

    def complain(self, what):
        print(f"WRONG: {what}", file=sys.stderr)
        self.wrong += 1

    def compare(self, place, answer):
        first = self.answers.setdefault(place, answer)
        if answer != first:
            self.complain(f"request {place + 1} was answered {first}, and then {answer}")


def run(program, lines, seen, kill_after=None, pause=0.0):
    """Sends these lines, and compares the answers. The program is killed so long after so many answers, or never.

    Says how long the run took, or None where it was killed.
    """
    with open("requests", "w") as file:
        file.write("".join(line + "\n" for line in lines))
    began = time.monotonic()
    with open("requests") as file:
        running = subprocess.Popen([program, "run"], stdin=file, stdout=subprocess.PIPE)
    answered = 0
    if kill_after is not None:
        while answered < kill_after and (line := running.stdout.readline()).endswith(b"\n"):
            seen.compare(answered, line.decode().rstrip("\n"))
            answered += 1
        time.sleep(pause)
        running.kill()
    rest = running.stdout.read().decode().split("\n")
    for answer in rest[:-1]:
        seen.compare(answered, answer)
        answered += 1
    status = running.wait()
    if status < 0:
        return None
    if status > 0 or answered != len(lines):
        seen.complain(f"{answered} of {len(lines)} lines were answered, with status {status}")
    return time.monotonic() - began


def main():
    if len(sys.argv) not in (2, 3):
        sys.exit(__doc__)
    program = os.path.realpath(sys.argv[1])
    rounds = int(sys.argv[2]) if len(sys.argv) == 3 else 300
    site = os.path.realpath(os.path.join(EXAMPLES, "site.toml"))
    lines = requests(2 + 2 * rounds)
    seen = Seen()
    killed = 0
    with tempfile.TemporaryDirectory(prefix="packsite-kill-") as folder:
        os.chdir(folder)
        subprocess.run([program, "init", site], check=True, stdout=subprocess.DEVNULL)
        # as long as a start takes; a pause within it meets the load of the journal
        start = run(program, [], seen)
        for number in range(1, rounds + 1):
            sent = lines[: 2 + 2 * number]
            # half of the rounds are killed among the lines that weren't answered before
            known = len(seen.answers)
            low = 0 if random.random() < 0.5 else min(known, len(sent))
            after = random.randint(low, len(sent))
            pause = random.random() * (start if after == 0 else 0.01)
            took = run(program, sent, seen, after, pause)
            killed += took is None
        run(program, lines, seen)
        os.chdir("/")
    drawn = [
        serial
        for answer in seen.answers.values()
        for serial in json.loads(answer).get("serials", [])
    ]
    if len(set(drawn)) != len(drawn):
        seen.complain("a serial was drawn twice")
    refused = [answer for answer in seen.answers.values() if not json.loads(answer)["ok"]]
    if refused:
        seen.complain(f"{len(refused)} requests were refused, as {refused[0]}")
    print(
        f"{rounds} rounds, {killed} of them killed: {len(seen.answers)} of {len(lines)} requests answered,"
        f" {len(drawn)} serials, {seen.wrong} wrong"
    )
    sys.exit(1 if seen.wrong or len(seen.answers) != len(lines) else 0)


main()
