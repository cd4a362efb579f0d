#!/usr/bin/env bash
# The programs, when a read or a write fails. A failed read is answered like missing input and told on standard error; so is a failed write.
# usage: programs.sh CRATES SHIM
set -euo pipefail
crates=$1 shim=$2
work=$(mktemp -d)
trap 'rm -rf "$work"' EXIT
tried=0

# expect WHAT LINES: standard output is what $work/expected holds, standard error the lines.
expect() {
    tried=$((tried + 1))
    cmp -s "$work/out" "$work/expected" && [ "$(cat "$work/err")" = "$2" ] && return
    echo "programs: $1: standard output:" >&2
    od -An -c "$work/out" | head -5 >&2
    echo "programs: standard error:" >&2
    cat "$work/err" >&2
    exit 1
}

# run PROGRAM INPUT [FAILING_READ]: a byte a read; none fails where no number is given.
run() {
    FAILING_READ=${3:-0} READ_AT_MOST=1 LD_PRELOAD=$shim "$crates/$1/out/$1" < "$2" > "$work/out" 2> "$work/err"
}

cp "$crates/desk/stdout" "$work/expected"
run desk "$crates/desk/stdin"
expect "desk, a byte a read" ""
echo "refused 2" > "$work/expected"
reads=$(wc -c < "$crates/desk/stdin")
for ((read = 1; read <= reads + 1; read++)); do
    run desk "$crates/desk/stdin" "$read"
    expect "desk, read $read failing" "desk: standard input: Input/output error"
done

# Two cases of nine bytes: an empty signature and an empty rule.
printf 'R\0\0\0\0\0\0\0\0R\0\0\0\0\0\0\0\0' > "$work/cases"
printf 'refused 2\nrefused 2\n' > "$work/expected"
run replay "$work/cases"
expect "replay, a byte a read" ""
for ((read = 1; read <= 19; read++)); do
    : > "$work/expected"
    for ((answered = 0; answered < (read - 1) / 9; answered++)); do echo 'refused 2' >> "$work/expected"; done
    echo 'bad case' >> "$work/expected"
    run replay "$work/cases" "$read"
    expect "replay, read $read failing" "replay: standard input: Input/output error"
done

: > "$work/expected"
: > "$work/out"
"$crates/desk/out/desk" < "$crates/desk/stdin" 2> "$work/err" > /dev/full
expect "desk into a full device" "desk: standard output: No space left on device"
"$crates/replay/out/replay" < "$work/cases" 2> "$work/err" > /dev/full
expect "replay into a full device" "replay: standard output: No space left on device"
echo "programs: $tried runs as expected"
