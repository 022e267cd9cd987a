#!/usr/bin/env bash
# A whole small batch: sends the requests of batch.jsonl one after the other, and compares each answer with batch.answers.
# In both files <1>, <2> and so on stand for the serials that the program drew, in their order.
#
#     cd crates/packsite && ../../examples/batch.sh rt run -- run
#
# The words are those that start the program.
set -eu
here=$(cd "$(dirname "$0")" && pwd)
coproc program { exec "$@"; }
serials=()

# The text with the serials in their places.
with_serials() {
    local text=$1 at
    for at in "${!serials[@]}"; do
        text=${text//"<$((at + 1))>"/"${serials[at]}"}
    done
    printf '%s' "$text"
}

# Takes the serials out of the answer to a draw.
keep_serials() {
    local list=${1#*'"serials":['}
    list=${list%%']'*}
    IFS=, read -ra serials <<<"${list//\"/}"
}

status=0
while IFS= read -r request <&3 && IFS= read -r wanted <&4; do
    request=$(with_serials "$request")
    printf '%s\n' "$request"
    printf '%s\n' "$request" >&"${program[1]}"
    IFS= read -r answer <&"${program[0]}"
    case $request in *'"do":"draw"'*) keep_serials "$answer" ;; esac
    wanted=$(with_serials "$wanted")
    printf '    %s\n' "$answer"
    if [ "$answer" != "$wanted" ]; then
        printf '    but %s was wanted\n' "$wanted"
        status=1
    fi
done 3<"$here/batch.jsonl" 4<"$here/batch.answers"
exit $status
