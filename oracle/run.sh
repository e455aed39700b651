#!/bin/sh
# Compares by running: the files by name, the long ones, and of each seed COUNT generated ones for each kind of question.
#
#     FASTPSBT_RS=ORIGINAL [ANSWERS=PROGRAM] [KINDS="parses lookups transactions tables"] run.sh COUNT SEED..
#
# Three ways: PROGRAM (the built program `answers`) with the original and with the model, and the model with the original.
# Without ANSWERS only the last. Tables that are lent are mostly unknown to the original: there only PROGRAM and the model.
# Ends with 0 if nothing differed.
set -eu
[ $# -ge 2 ] || { sed -n '2,8s/^# \{0,1\}//p' "$0" >&2; exit 2; }
: "${FASTPSBT_RS:?the path of the original}"
count=$1
shift
here=$(cd "$(dirname "$0")" && pwd)
cargo build --quiet --offline --release --manifest-path "$here/Cargo.toml" --workspace
bin=$here/target/release
work=$(mktemp -d)
trap 'rm -rf "$work"' EXIT
failed=0

# compared NAME OURS THEIRS [--whole]: keeps what was said, shows its last line, and all of it where something differed.
compared() {
  name=$1
  shift
  "$bin/compare" "$@" --records "$work/records" >"$work/said" || { failed=1; cat "$work/said"; }
  echo "  $name: $(tail -n 1 "$work/said")"
  cat "$work/said" >>"$work/$name"
}

# The records of a set: one of those by name, or a kind and a seed.
made() {
  case $1 in
    fixed | asked | long) "$bin/generate" "$1" ;;
    parses.*) "$bin/generate" "${1#*.}" "$count" ;;
    *) "$bin/generate" "${1%%.*}" "${1#*.}" "$count" ;;
  esac
}

sets="fixed asked long"
for kind in ${KINDS:-parses lookups transactions tables}; do
  for seed in "$@"; do sets="$sets $kind.$seed"; done
done

for set in $sets; do
  made "$set" >"$work/records" 2>"$work/made"
  head -n 1 "$work/made" | sed "s/^/$set: /"
  "$bin/model" <"$work/records" >"$work/model"
  case $set in
    tables.*) ;;
    *)
      "$bin/harness" <"$work/records" >"$work/original"
      compared model-original "$work/model" "$work/original"
      ;;
  esac
  if [ -n "${ANSWERS:-}" ]; then
    "$ANSWERS" <"$work/records" >"$work/answers"
    case $set in
      tables.*) ;;
      *) compared answers-original "$work/answers" "$work/original" ;;
    esac
    compared answers-model "$work/answers" "$work/model" --whole
  fi
done

for name in model-original answers-original answers-model; do
  [ -f "$work/$name" ] || continue
  echo "$name"
  echo "call number     lines differing"
  awk 'NF == 4 && $1 ~ /^[0-9]+$/ { all[$1 " " $2] += $3; other[$1 " " $2] += $4 }
    END { for (v in all) { split(v, w, " "); printf "%4d %6d %9d %9d\n", w[1], w[2], all[v], other[v] } }' \
    "$work/$name" | sort -n -k 1,1 -k 2,2
  awk '$1 == "compared" { gsub(/,/, ""); c += $2; e += $4; g += $7; d += $9; n += $11; s += $16 }
    END {
      printf "compared %d, equal %d, greater locks %d, differing %d, skipped %d without an answer and %d short of room\n",
        c, e, g, d, n, s
    }' "$work/$name"
done
exit $failed
