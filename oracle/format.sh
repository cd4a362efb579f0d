#!/usr/bin/env bash
# Runs every example of docs/FORMAT.md by replay and by the oracle: each draws the refusal of its row, and every refusal has one. The bytes
# that README.md shows are those of desk's stored input and output.
# usage: format.sh REPLAY ORACLE, at the repository's root
set -euo pipefail
replay=$1 oracle=$2
work=$(mktemp -d)
trap 'rm -rf "$work"' EXIT

# A row `| N | meaning | `LETTER SIGNATURE / RECORD [/ NUMBER]` |` as a case of the oracle's text.
awk -F'`' '/^\| [0-9]+ \|.*`[RGFS] .*` \|$/ {
    split($1, row, " "); n = split($2, part, "/"); letter = substr(part[1], 1, 1)
    print "case " letter " " row[2]
    print "signature " substr(part[1], 3)
    print (letter ~ /[RF]/ ? "rule" : "group") part[2]
    if (n == 3) print (letter == "F" ? "room" : "position") part[3]
    print "answer refused " row[2] (letter == "F" ? " kept" : "")
}' docs/FORMAT.md | sed 's/ *$//' > "$work/cases.txt"
sed -n 's/^answer //p' "$work/cases.txt" > "$work/expected"

"$oracle" pack < "$work/cases.txt" > "$work/cases"
"$replay" < "$work/cases" > "$work/replayed"
"$oracle" answer < "$work/cases" > "$work/answered"
diff "$work/expected" "$work/replayed"
diff "$work/expected" "$work/answered"

# Signature 1 to 5, rule 1 to 8, group 1 to 5 and 7, 8, flatten 21 to 31, scope 41 to 43.
{ seq 1 5; seq 1 8; seq 1 5; seq 7 8; seq 21 31; seq 41 43; } > "$work/refusals"
sed -n 's/^case . //p' "$work/cases.txt" | diff "$work/refusals" -

# The blocks ```bytes of a page, without the words behind two blanks, as hexadecimal.
shown() { sed -n '/^```bytes$/,/^```$/p' "$1" | grep -v '^```' | sed 's/  .*//' | tr -d ' \n'; }
hex() { od -An -v -tx1 "$@" | tr -d ' \n'; }
[ "$(shown README.md)" = "$(cat crates/desk/stdin crates/desk/stdout | hex)" ] || {
    echo "format: README.md shows other bytes than desk's stored ones" >&2
    exit 1
}
echo "format: $(wc -l < "$work/expected") examples as docs/FORMAT.md says"
