#!/usr/bin/env bash
# Reads the DVI files of the examples, of the documents in the manual, and of 200 generated documents with dvitype, and compares where each mark
# stands with what peers/places.py works out from the document.
#
#     peers/dvitype.sh [PROGRAM]       PROGRAM is crates/ntx/out/ntx if it is not given
#
# It is skipped, with 0, if dvitype or python3 is missing.
cd "$(dirname "$0")/.." || exit 1

for tool in dvitype python3; do
    if ! command -v "$tool" >/dev/null; then
        echo "peers/dvitype.sh: skipped, since there is no $tool"
        exit 0
    fi
done
program=$(realpath "${1:-crates/ntx/out/ntx}")
if [ ! -x "$program" ]; then
    echo "peers/dvitype.sh: there is no program $program: run rt ci, or rt run in crates/ntx"
    exit 1
fi
room=$(mktemp -d) || exit 1
trap 'rm -rf "$room"' EXIT
failed=0
python3 peers/places.py "$program" crates/ntx/data/T.tfm 200 "$room" \
    examples/box/box.txt examples/text/words.txt docs/manual/document.md || failed=1

roman=$(kpsewhich cmr10.tfm 2>/dev/null)
if [ -f "$roman" ]; then
    python3 peers/places.py "$program" "$roman" 0 "$room" examples/text/roman.txt || failed=1
else
    echo "peers/dvitype.sh: one example is skipped, since there is no cmr10.tfm"
fi
exit $failed
