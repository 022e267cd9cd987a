#!/bin/sh
# Proves and runs the benchmark of the desk, in a folder of its own beside copies of the crates below it.
# Its files end in .txt, since the gate reads every .rt and .antt file of the repository as a crate's.
set -eu
here=$(cd "$(dirname "$0")" && pwd)
top=$(cd "$here/../.." && pwd)
room=$(mktemp -d)
trap 'rm -rf "$room"' EXIT
mkdir -p "$room/crates/desk_bench"
cp "$top/HANDLES" "$room/"
for crate in gs1_keys gs1_element epc_urn deed_words turn_desk; do
    cp -r "$top/crates/$crate" "$room/crates/"
    grep "^$crate[ :]" "$top/crates.txt" >> "$room/crates.txt"
done
echo 'desk_bench: gs1_keys gs1_element epc_urn deed_words atomic_table turn_desk' >> "$room/crates.txt"
cp -r "$here/src" "$here/proofs" "$room/crates/desk_bench/"
find "$room/crates/desk_bench" -name '*.txt' | while read -r file; do
    mv "$file" "${file%.txt}"
done
cd "$room/crates/desk_bench"
rt run --jobs 1
