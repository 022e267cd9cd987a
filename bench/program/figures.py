"""figures.py PROGRAM [FOLDER]: the times of a built packsite on a real file and in a memory-backed folder, as one table.

In one run it makes journals by `sim 7 COUNT` for 2,000, 20,000 and 200,000 serials, loads them, checks them, prints the
report and 10,000 events of their batch, and answers a script of 100,000 requests with `run`. FOLDER is where the real
files lie, /var/tmp if it is left out. Each row has the seconds and the peak of memory, and how often that is what the row
above it took. No figure is a promise.
"""

import os
import shutil
import subprocess
import sys
import tempfile
import time

COUNTS = (2_000, 20_000, 200_000)
REQUESTS = 100_000
MEMORY = "/dev/shm"

SITE = os.path.join(os.path.dirname(os.path.abspath(__file__)), "..", "..", "examples", "site.toml")


def run(program, words, folder, lines=None):
    """Seconds by the clock, peak memory in MB and output of one run; it must end with status 0."""
    source = open(lines, "rb") if lines else subprocess.DEVNULL
    with tempfile.TemporaryFile() as out:
        began = time.monotonic()
        ran = subprocess.Popen([program, *words], cwd=folder, stdin=source, stdout=out)
        _, status, used = os.wait4(ran.pid, 0)
        seconds = time.monotonic() - began
        ran.returncode = os.waitstatus_to_exitcode(status)
        if lines:
            source.close()
        out.seek(0)
        put = out.read()
    if ran.returncode:
        sys.exit(f"packsite {' '.join(words)}: status {ran.returncode}, {put[:200]!r}")
    return seconds, used.ru_maxrss / 1024, put


def row(what, took, before):
    """Prints a row, with the growth from the one before."""
    seconds, peak, _ = took
    growth = f"{seconds / before[0]:7.1f}-fold {peak / before[1]:6.1f}-fold" if before else ""
    print(f"{what:34} {seconds:9.3f} s {peak:8.1f} MB {growth}", flush=True)
    return took


def sims(program, room, where):
    """The three journals, each in a folder of its own."""
    before, folders = None, []
    for count in COUNTS:
        folder = os.path.join(room, str(count))
        os.mkdir(folder)
        before = row(f"sim 7 {count}, {where}", run(program, ["sim", "7", str(count)], folder), before)
        print(f"{'':34} {before[2].decode().strip()}")
        folders.append(folder)
    return folders


def looks(program, folders, where):
    """What the commands that read take over them. `log 1 1` loads the journal and prints a line."""
    for words in (["log", "1", "1"], ["check"], ["report", "SIM"], ["export", "SIM", "1", "10000"]):
        before = None
        for folder, count in zip(folders, COUNTS):
            before = row(f"{' '.join(words)} of {count}, {where}", run(program, words, folder), before)


def requests(path, count):
    """A script of so many requests: containers that are made and put out of use."""
    order = '{"do":"order","batch":"B7","gtin":"00614141123452","lot":"L","expiry":"2027-12-31","quantity":2,"case":2,"pallet":0}'
    with open(path, "w") as script:
        script.write('{"station":"P1","number":1,"deed":%s}\n' % order)
        script.write('{"station":"P1","number":2,"deed":{"do":"start","batch":"B7"}}\n')
        for unit in range((count - 2) // 2):
            made = '{"do":"container","batch":"B7","level":"case"}'
            void = '{"do":"void","unit":"urn:epc:id:sscc:0614141.1%09d"}' % (unit + 1)
            script.write('{"station":"L1","number":%d,"deed":%s}\n' % (2 * unit + 1, made))
            script.write('{"station":"L1","number":%d,"deed":%s}\n' % (2 * unit + 2, void))


def scripts(program, room, where):
    """`run` over a tenth of the script and over the whole, and over the whole once more, which is all kept."""
    before = None
    for count in (REQUESTS // 10, REQUESTS):
        folder = os.path.join(room, f"run{count}")
        os.mkdir(folder)
        script = os.path.join(folder, "script")
        requests(script, count)
        run(program, ["init", os.path.abspath(SITE)], folder)
        before = row(f"run of {count} requests, {where}", run(program, ["run"], folder, script), before)
        if before[2].count(b'"ok":true') != count:
            sys.exit("a request was refused")
    again = run(program, ["run"], folder, script)
    row(f"the same {REQUESTS} again, {where}", again, before)
    if again[2] != before[2]:
        sys.exit("an answer was another")


def main():
    program = os.path.abspath(sys.argv[1])
    real = sys.argv[2] if len(sys.argv) > 2 else "/var/tmp"
    for where, place in (("in memory", MEMORY), ("on a file", real)):
        room = tempfile.mkdtemp(dir=place)
        try:
            looks(program, sims(program, room, where), where)
            scripts(program, room, where)
        finally:
            shutil.rmtree(room)


main()
