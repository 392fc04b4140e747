#!/bin/sh
# What the compiler has to refuse: lender.txt is accepted, and each edit of it (old, new, and the error that has to come) is not.
# The crates are checked in a copy, so that nothing of this is left for the gate.
set -e
root=$(cd "$(dirname "$0")/../.." && pwd)
here=$root/.ci/misuse
copy=$(mktemp -d)
trap 'rm -rf "$copy"' EXIT
cp -r "$root/crates" "$root/crates.txt" "$copy"
mkdir -p "$copy/crates/lender/src" "$copy/crates/lender/specs"
: > "$copy/crates/lender/specs/Lib.antt"
echo "lender: refusal model closed_sheet sheet" >> "$copy/crates.txt"
cd "$copy"
source=crates/lender/src/lib.rt
accepted() {
    (cd crates/lender && rt check) > log 2>&1
}
cp "$here/lender.txt" $source
if ! accepted; then
    tail -n 20 log
    echo "misuse: lender.txt itself is not accepted"
    exit 1
fi
for edit in "$here"/*.edit; do
    old=$(sed -n 's/^old: //p' "$edit") new=$(sed -n 's/^new: //p' "$edit") error=$(sed -n 's/^error: //p' "$edit")
    OLD=$old NEW=$new awk '{ text = text $0 "\n" } END {
        at = index(text, ENVIRON["OLD"]); if (!at) exit 3
        printf "%s%s%s", substr(text, 1, at - 1), ENVIRON["NEW"], substr(text, at + length(ENVIRON["OLD"]))
    }' "$here/lender.txt" > $source || { echo "misuse: ${edit##*/} does not fit lender.txt"; exit 1; }
    if accepted || ! grep -q "error\[$error\]" log; then
        grep -E "error" log | head -n 5
        echo "misuse: ${edit##*/} is not refused by $error"
        exit 1
    fi
    echo "misuse: ${edit##*/} is refused by $error"
done
