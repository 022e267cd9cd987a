#!/usr/bin/env python3
"""Cuts a journal at each byte, and looks what packsite says of each cut file.

    scripts/cut-journal.py PROGRAM

PROGRAM is the built program. A journal of a few requests is made, and its file is cut in two ways.

- Cut: the file ends after any number of its bytes, which no stop of the program leaves. `run` names the damage,
  `journal bad at N` with status 6, where N is the place of the last gate that still stands, or that is missing; of
  fewer than two bytes it says `no journal`, with status 5. The file stays as it was.
- Torn: as a stop amid the append of a request leaves it. The gates up to that request are open, its own is closed, and
  behind that any number of its bytes stand. `run` goes on: the requests before it keep their answers, and it and the
  later ones are done now, once.

The bytes are read here by the journal's own grammar: a gate (1 open, 0 closed), `PACKSITE`, a length of four bytes and
so many bytes of the site; then records, each a gate, a length of four bytes and so many bytes; and a closed gate.

It works in a folder of its own, says in one line what it saw, and ends with status 1 where an answer was wrong. It is
no part of the gate: no proof speaks of a real file.
"""

import json
import os
import subprocess
import sys
import tempfile

EXAMPLES = os.path.join(os.path.dirname(os.path.abspath(__file__)), "..", "examples")
JOURNAL = "packsite.journal"
ORDER = {"do": "order", "batch": "B1", "gtin": "00614141123452", "lot": "LOT1"} | {
    "expiry": "2027-12-31",
    "quantity": 10,
    "case": 5,
    "pallet": 0,
}
REQUESTS = [
    ("P1", 1, ORDER),
    ("P1", 2, {"do": "start", "batch": "B1"}),
    ("P1", 3, {"do": "draw", "batch": "B1", "count": 2}),
    ("P1", 4, {"do": "draw", "batch": "B2", "count": 2}),
    ("L1", 1, {"do": "lend", "batch": "B1", "count": 1}),
    ("P1", 5, {"do": "draw", "batch": "B1", "count": 1}),
]
LINES = "".join(
    json.dumps({"station": station, "number": number, "deed": deed}) + "\n"
    for station, number, deed in REQUESTS
)


class Looks:
    """How many files were looked at, and how many answers were wrong."""

    def __init__(self, program):
        self.program = program
        self.files = 0
        self.wrong = 0

    def complain(self, what):
        print(f"WRONG: {what}", file=sys.stderr)
        self.wrong += 1

    def run(self, journal):
        """Runs the program on a file of these bytes, and gives the lines that it put, its status and the file."""
        self.files += 1
        with open(JOURNAL, "wb") as file:
            file.write(journal)
        return self.run_again()

    def run_again(self):
        how = {"stdout": subprocess.PIPE, "stderr": subprocess.DEVNULL}
        done = subprocess.run([self.program, "run"], input=LINES.encode(), check=False, **how)
        with open(JOURNAL, "rb") as file:
            return done.stdout.decode().splitlines(), done.returncode, file.read()

    def cut(self, journal, gates, end):
        """The file ends behind so many bytes."""
        cut = journal[:end]
        put, status, left = self.run(cut)
        place = max(gate for gate in gates if gate <= end)
        wanted = (["no journal"], 5) if end < 2 else ([f"journal bad at {place}"], 6)
        if (put, status) != wanted:
            self.complain(f"cut at {end}: {put}, status {status}, in place of {wanted}")
        if left != cut:
            self.complain(f"cut at {end}: the file was changed")

    def torn(self, journal, gates, record, end, answers):
        """The gate of a record is closed, and the file ends behind so many bytes."""
        torn = bytearray(journal[:end])
        for gate in gates[record : record + 2]:
            torn[gate : gate + 1] = b"\0" if gate < end else b""
        what = f"torn at {end}, in request {record}"
        # requests are records in their order, the first behind the header
        kept = record - 1
        put, status, _ = self.run(torn)
        if status != 0 or len(put) != len(answers):
            self.complain(f"{what}: {len(put)} lines, status {status}")
            return
        if put[:kept] != answers[:kept]:
            self.complain(f"{what}: {put[:kept]} in place of {answers[:kept]}")
        if [json.loads(line)["ok"] for line in put] != [json.loads(line)["ok"] for line in answers]:
            self.complain(f"{what}: {put}")
        again, status, _ = self.run_again()
        if (again, status) != (put, 0):
            self.complain(f"{what}: at first {put}, and then {again}")


def gates_of(journal):
    """The places of the gates: the header's, each record's, and the closed one."""
    length = lambda at: int.from_bytes(journal[at : at + 4], "big")
    assert journal[1:9] == b"PACKSITE"
    gates = [0, 13 + length(9)]
    while journal[gates[-1]] == 1:
        gates.append(gates[-1] + 5 + length(gates[-1] + 1))
    return gates


def main():
    if len(sys.argv) != 2:
        sys.exit(__doc__)
    looks = Looks(os.path.realpath(sys.argv[1]))
    site = os.path.realpath(os.path.join(EXAMPLES, "site.toml"))
    with tempfile.TemporaryDirectory(prefix="packsite-cut-") as folder:
        os.chdir(folder)
        subprocess.run([looks.program, "init", site], check=True, stdout=subprocess.DEVNULL)
        answers, status, journal = looks.run_again()
        gates = gates_of(journal)
        if status != 0 or len(gates) != len(REQUESTS) + 2 or gates[-1] != len(journal) - 1:
            looks.complain(f"{len(gates) - 2} records of {len(REQUESTS)} requests, status {status}")
        for end in range(len(journal)):
            looks.cut(journal, gates, end)
        for record in range(1, len(gates) - 1):
            for end in range(gates[record] + 1, gates[record + 1] + 2):
                looks.torn(journal, gates, record, end, answers)
        os.chdir("/")
    print(f"{looks.files} files of a journal of {len(journal)} bytes, {looks.wrong} wrong")
    sys.exit(1 if looks.wrong else 0)


main()
