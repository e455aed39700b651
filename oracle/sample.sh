#!/bin/sh
# Makes a sample that can be replayed without Rust at hand.
#
#     FASTPSBT_RS=ORIGINAL sample.sh COUNT LATER SEED RECORDS LINES
#
# RECORDS gets those of the files by name, parses of COUNT generated files, and lookups, transactions and tables of LATER each,
# and at its end one of a kind that isn't known, so that the last line is `cut`. LINES gets what the original answers to them,
# or the model where the original can't: rooms that are too small for a file (22 and 23), calls that it hasn't, tables that are
# lent, and a transaction whose inputs ask a lock beside a fallback. Ends with 1 and writes nothing if original and model differ
# on any other call, or there in anything but the lock.
set -eu
[ $# -eq 5 ] || { sed -n '2,10s/^# \{0,1\}//p' "$0" >&2; exit 2; }
: "${FASTPSBT_RS:?the path of the original}"
here=$(cd "$(dirname "$0")" && pwd)
cargo build --quiet --offline --release --manifest-path "$here/Cargo.toml" --workspace
bin=$here/target/release
work=$(mktemp -d)
trap 'rm -rf "$work"' EXIT
{
  "$bin/generate" fixed
  "$bin/generate" "$3" "$1"
  "$bin/generate" asked
  for kind in lookups transactions tables; do "$bin/generate" "$kind" "$3" "$2"; done
  printf '\012\0\0\0\0\0\0\0\0'
} >"$work/records" 2>/dev/null
"$bin/harness" <"$work/records" >"$work/original"
"$bin/model" <"$work/records" >"$work/model"
"$bin/compare" "$work/model" "$work/original" --records "$work/records"
awk -v model="$work/model" '{
  getline ours <model
  print ours ~ /^0 2[23] / || $0 == "none" || / fallback [0-9]+$/ ? ours : $0
}' "$work/original" >"$work/lines"
cp "$work/records" "$4"
cp "$work/lines" "$5"
