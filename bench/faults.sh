#!/usr/bin/env bash
# Input that cannot be read and output that cannot be written, after `rt run` in crates/plan and crates/ask: each fault must be told on standard error, with no answer on standard output.
# RUN, where it is set, is put before the programs: an emulator, on a processor other than x86-64.
set -uo pipefail
top=$(cd "$(dirname "$0")/.." && pwd)
work=$(mktemp -d)
trap 'rm -rf "$work"' EXIT
cd "$work"
table=$top/examples/printed.csv
plan="${RUN:-} $top/crates/plan/out/plan"
ask="${RUN:-} $top/crates/ask/out/ask"
failed=0

# what was expected of the last run, and what it came to
say() {
    if [ "$2" = yes ]; then printf '%s: %s\n' "$1" "${3:-as it should}"; else printf '%s: FAILED\n' "$1"; failed=1; fi
    rm -f out err
}
told() { say "$1" "$([ ! -s out ] && [ -s err ] && echo yes)" "$(head -n 1 err)"; }
answered() { say "$1" "$([ ! -s err ] && cmp -s out "$2" && echo yes)"; }

$plan < "$table" > out 2> err;             answered 'plan, no fault' "$top/crates/plan/stdout"
$ask 2 1@21 2@45 2@46 < "$table" > out 2> err; answered 'ask, no fault' "$top/crates/ask/stdout"
for name in plan ask; do
    run=${!name}
    [ "$name" = ask ] && run="$run 2 1@21"
    $run < . > out 2> err;                 told "$name, a directory as input"
    $run <&- > out 2> err;                 told "$name, a closed input"
    $run 0> sink > out 2> err;             told "$name, an input that is open for writing only"
    # the read behind the table's bytes fails, once the other side of a terminal is closed
    python3 - $run > out 2> err <<PY
import os, pty, subprocess, sys, tty
master, slave = pty.openpty()
tty.setraw(slave)
os.write(slave, open('$table', 'rb').read())
os.close(slave)
subprocess.run(sys.argv[1:], stdin=master)
PY
    told "$name, a read that fails half way"
    $run < "$table" 2> err > /dev/full;    told "$name, a full device as output"
    $run < "$table" 2> err >&-;            told "$name, a closed output"
done
# shellcheck disable=SC2046
$ask 2 $(yes 1@21 | head -n 9000) < "$table" > out 2> err; told 'ask, more arguments than it takes'
exit $failed
