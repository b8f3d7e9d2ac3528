#!/usr/bin/env bash
# A mark must be kept or taken back. Its two misuses, leaving it behind on an early return and using it after its take-back, are
# refused by the compiler before the prover is asked, so they cannot be must-fail edits and are tried here. The last line of each
# edit names the error that is wanted.
set -u
root=$(cd "$(dirname "$0")/.." && pwd)
work=$(mktemp -d)
trap 'rm -rf "$work"' EXIT
# what earlier checks kept of the crates is found by rt itself
tar -C "$root" --exclude=out -cf - crates.txt crates | tar -C "$work" -xf -
bad=0
for edit in "$root"/checks/misuse/*.edit; do
    file=$work/$(sed -n 's/^file: //p' "$edit")
    cp "$file" "$work/saved"
    OLD=$(sed -n 's/^old: //p' "$edit") NEW=$(sed -n 's/^new: //p' "$edit") python3 - "$file" <<'P' || { bad=1; continue; }
import os, sys
path = sys.argv[1]
text = open(path).read()
if text.count(os.environ['OLD']) != 1:
    sys.exit('the old text does not stand once in ' + path)
open(path, 'w').write(text.replace(os.environ['OLD'], os.environ['NEW']))
P
    want=$(sed -n 's/^error: //p' "$edit")
    if (cd "$work/crates/plan" && rt check 2>&1) | grep -q "error\[$want\]"; then
        echo "refused: $(basename "$edit") ($want)"
    else
        echo "NOT REFUSED: $(basename "$edit")"
        bad=1
    fi
    cp "$work/saved" "$file"
done
exit $bad
