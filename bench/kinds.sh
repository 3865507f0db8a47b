#!/usr/bin/env bash
# Ticks, firings and tokens taken for each other, and a unit opened outside its crate: each edit of kinds/ must be refused by the compiler, before any proof.
# (The gate's must-fail edits are those that reach the prover.)
set -euo pipefail
top=$(cd "$(dirname "$0")/.." && pwd)
work=$(mktemp -d)
trap 'rm -rf "$work"' EXIT
printf 'numbers:\nunits: numbers\nperiod: units numbers\nrate: units numbers\n' > "$work/crates.txt"
mkdir "$work/crates"
for crate in numbers units period rate; do cp -r "$top/crates/$crate" "$work/crates/"; done
cd "$work"
rt all check > proved.txt 2>&1 || { tail -n 5 proved.txt; exit 1; }
failed=0
for edit in "$top"/bench/kinds/*.edit; do
    file=$(sed -n 's/^file: //p' "$edit")
    old=$(sed -n 's/^old: //p' "$edit")
    new=$(sed -n 's/^new: //p' "$edit")
    cp "$file" before
    python3 - "$file" "$old" "$new" <<'PY'
import sys
path, old, new = sys.argv[1:]
text = open(path).read()
assert text.count(old) == 1, 'the edit does not fit ' + path
open(path, 'w').write(text.replace(old, new))
PY
    if rt all check > said.txt 2>&1; then said='NOT REFUSED'; else said=$(grep -m 1 -o 'error\[[a-z-]*\].*' said.txt || echo 'REFUSED BY A PROOF ONLY'); fi
    case $said in error*) ;; *) failed=1 ;; esac
    printf '%s: %s\n' "$(basename "$edit" .edit)" "$said"
    cp before "$file"
done
exit $failed
