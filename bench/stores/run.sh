#!/bin/sh
# Proves and runs the benchmark of the stores and of a site, in a folder of its own beside copies of the crates below it.
# Its files end in .txt, since the gate reads every .rt and .antt file of the repository as a crate's.
set -eu
here=$(cd "$(dirname "$0")" && pwd)
top=$(cd "$here/../.." && pwd)
room=$(mktemp -d)
trap 'rm -rf "$room"' EXIT
mkdir -p "$room/crates/store_bench"
cp "$top/HANDLES" "$room/"
below='gs1_keys gs1_element epc_urn deed_words outside place_table row_chains name_marks item_store pack_tree batch_book
    serial_pool request_memo site_stores site_rules site_deeds row_lists move_list batch_report site_views site_core'
for crate in $below; do
    cp -r "$top/crates/$crate" "$room/crates/"
    grep "^$crate[ :]" "$top/crates.txt" >> "$room/crates.txt"
done
echo "store_bench:" $below itoa >> "$room/crates.txt"
cp -r "$here/src" "$here/proofs" "$room/crates/store_bench/"
find "$room/crates/store_bench" -name '*.txt' | while read -r file; do
    mv "$file" "${file%.txt}"
done
cd "$room/crates/store_bench"
rt run --jobs 1 > /dev/null
python3 "$here/compare.py" out/store_bench
