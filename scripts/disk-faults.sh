#!/bin/sh
# Runs packsite on a real journal while system calls fail, and looks whether what was answered is kept.
#
#   scripts/disk-faults.sh PROGRAM [SITE LINES]
#
# PROGRAM is the built program, SITE a site file, and LINES a file of requests, of which one draws serials: what was
# lost shows where a new answer differs, as that of a draw does. Unless they are given, they are those of examples/.
# It needs strace, which injects the faults, and works in a folder of its own.
#
# It is no part of the gate: no proof speaks of a real file.
set -u

[ $# -eq 1 ] || [ $# -eq 3 ] || { sed -n '2,10s/^# \{0,1\}//p' "$0"; exit 2; }
examples=$(dirname "$0")/../examples
program=$(realpath "$1") site=$(realpath "${2:-$examples/site.toml}") lines=$(realpath "${3:-$examples/orders.jsonl}")
folder=$(mktemp -d)
trap 'rm -rf "$folder"' EXIT
cd "$folder" || exit 2
runs=0 wrong=0

complain() {
    echo "WRONG: $1"
    wrong=$((wrong + 1))
}

# A journal without entries.
fresh() {
    rm -f packsite.journal answers again trace
    "$program" init "$site" > /dev/null || { echo "init fails without any fault"; exit 2; }
}

# Runs once more without a fault: each whole line that was answered, and not by a fault, is answered as before.
# `disk fault` is the line with which the program ends.
look() {
    runs=$((runs + 1))
    "$program" run < "$lines" > again || complain "$1: the journal isn't read again"
    awk 'NR == FNR { again[FNR] = $0; next }
         !/"fault"|^disk fault$/ && $0 != again[FNR] { bad = 1 } END { exit bad }' again whole ||
        complain "$1: what was answered isn't kept"
}

# The whole lines of the answers.
whole_lines() {
    if [ -s answers ] && [ "$(tail -c 1 answers | wc -l)" -eq 0 ]; then
        sed '$d' answers > whole
    else
        cp answers whole
    fi
}

# The n-th call of a kind fails or kills the program, for each n, until there is none.
for call in pwrite64 fdatasync fsync; do
    for how in error=EIO error=ENOSPC signal=KILL; do
        n=1
        while :; do
            fresh
            strace -f -qq -o trace -e trace="$call" -e inject="$call:$how:when=$n" \
                "$program" run < "$lines" > answers 2> /dev/null
            grep -q 'INJECTED\|killed by' trace || break
            whole_lines
            look "run, $call $n, $how"
            n=$((n + 1))
        done
        echo "run: $call, $how: $((n - 1)) faults"

        n=1
        while :; do
            rm -f packsite.journal
            strace -f -qq -o trace -e trace="$call" -e inject="$call:$how:when=$n" \
                "$program" init "$site" > /dev/null 2>&1
            grep -q 'INJECTED\|killed by' trace || break
            "$program" init "$site" > answers
            grep -qx 'ready\|journal there' answers || complain "init, $call $n, $how: neither made nor there"
            : > whole
            look "init, $call $n, $how"
            n=$((n + 1))
        done
        echo "init: $call, $how: $((n - 1)) faults"
    done
done

# Each standard descriptor is closed.
fresh
"$program" run <&- > answers || complain "input closed: the status isn't 0"
[ ! -s answers ] || complain "input closed: something was read"
: > whole
look "input closed"
fresh
"$program" run < "$lines" >&- 2> /dev/null && complain "output closed: the status is 0"
head -c 9 packsite.journal | tail -c 8 | grep -q PACKSITE || complain "output closed: the journal was overwritten"
: > whole
look "output closed"
fresh
"$program" run < "$lines" > answers 2>&- || complain "error closed: the status isn't 0"
cp answers whole
look "error closed"
echo "closed descriptors: 3"

# Two programs are on one journal; the first one is killed while it waits for a line.
fresh
mkfifo requests
"$program" run < requests > answers &
first=$!
exec 3> requests
head -n 1 "$lines" >&3
for _ in 1 2 3 4 5 6 7 8 9 10; do
    [ -s answers ] && break
    sleep 0.2
done
[ -s answers ] || complain "two programs: the first answers nothing"
"$program" run < "$lines" > second 2> why
[ $? -eq 9 ] || complain "two programs: the second isn't refused"
grep -qx 'disk fault' second || complain "two programs: the second doesn't tell it"
grep -q 'packsite.journal is in use' why || complain "two programs: the second doesn't say why"
kill -9 "$first"
wait "$first" 2> /dev/null
exec 3>&-
cp answers whole
look "killed while it waits"
echo "two programs: the second was refused"

echo "$runs runs, $wrong wrong"
[ "$wrong" -eq 0 ]
