#!/bin/sh
# Holds the texts of `dump` and `why` to texts computed apart, by the package `text`.
#
#     text.sh                 the stored texts: of crates/dump, dump_runs, why and why_runs
#     text.sh --write         stores them as they are computed, after their rules have changed
#     text.sh COUNT SEED..    these, and what both programs print of generated files, of each seed COUNT as for parses and COUNT as for
#                             transactions; the seed `fixed` has the files by name, as many as there are
#
# PROGRAMS is the folder of the built programs, else target/front of the repository (`./dump FILE` and `./why FILE` build them there).
# Ends with 1 where a text differs.
set -eu
export LC_ALL=C
here=$(cd "$(dirname "$0")" && pwd -P)
root=$(dirname "$here")
cargo build --quiet --offline --release --manifest-path "$here/Cargo.toml"
bin=$here/target/release
work=$(mktemp -d)
trap 'rm -rf "$work"' EXIT
failed=0

# computed PROGRAM FILE..: the text of files
computed() { "$bin/text" "$@"; }

# same NAME STORED: what was computed is what is stored
same() {
  if [ "${write:-}" = yes ]; then cp "$work/computed" "$2"; fi
  if cmp "$work/computed" "$2" >&2; then
    echo "$1: $(wc -l <"$2" | tr -d ' ') lines, as computed"
  else
    failed=1
    diff "$2" "$work/computed" | head -n 10 >&2 || true
  fi
}
if [ "${1:-}" = --write ]; then write=yes; shift; fi
for program in dump why; do
  computed $program "$root/crates/$program/stdin" >"$work/computed"
  same $program "$root/crates/$program/stdout"
  (cd "$root/crates/${program}_runs/data" && computed $program $(cat ../args)) >"$work/computed"
  same ${program}_runs "$root/crates/${program}_runs/stdout"
done
[ $# -gt 0 ] || exit $failed
[ $# -gt 1 ] || { sed -n '2,10s/^# \{0,1\}//p' "$0" >&2; exit 2; }

count=$1
shift
programs=$(cd "${PROGRAMS:-$root/target/front}" && pwd -P)

# compared NAME: both programs on the files that records lend
compared() {
  rm -rf "$work/files"
  mkdir "$work/files"
  "$bin/text" split "$work/files" <"$work/records"
  cd "$work/files"
  files=0 differing=0
  for file in *; do
    files=$((files + 1))
    for program in dump why; do
      "$programs/$program" <"$file" >"$work/printed"
      computed $program "$file" >"$work/computed"
      cat "$work/printed" >>"$work/$program"
      cmp -s "$work/printed" "$work/computed" && continue
      differing=$((differing + 1)) failed=1
      [ $differing -le 3 ] || continue
      echo "$program differs (<) from what is computed (>), of the file $(od -An -v -tx1 "$file" | tr -d ' \n' | cut -c 1-400):" >&2
      diff "$work/printed" "$work/computed" | head -n 10 >&2 || true
    done
  done
  cd "$here"
  echo "$1: $files files, $differing texts differ"
}
for seed in "$@"; do
  if [ "$seed" = fixed ]; then
    "$bin/generate" fixed >"$work/records" 2>/dev/null
    compared 'files by name'
    continue
  fi
  "$bin/generate" "$seed" "$count" >"$work/records" 2>/dev/null
  compared "seed $seed, parses"
  "$bin/generate" transactions "$seed" "$count" >"$work/records" 2>/dev/null
  compared "seed $seed, transactions"
done

# What was printed, line by line with numbers and bytes left out.
echo 'lines of dump, by their first word'
awk '{ what = $1 ~ /^(psbt|map|unsigned|refused)$/ ? $1 : "pair"; if ($2 == "refused") what = what " refused"; n[what]++ }
  END { for (what in n) printf "%9d %s\n", n[what], what }' "$work/dump" | sort -k 2
echo 'lines of why, with N for numbers but those of refusals'
sed 's/refused \([0-9]*\)/refused <\1>/; s/([^)]*UTC)/(DATE)/; s/ [0-9][0-9]*/ N/g; s/<\([0-9]*\)>/\1/' "$work/why" | sort | uniq -c
exit $failed
