#!/bin/sh
# build.sh: proves the library and builds both examples over it, target/examples/c/psbt_show and target/examples/rust/psbt_show; then tries the
# figures that the header gives (c/figures.c). It needs rt, a C compiler (CC, else cc) and rustc, and no network. LIBRARY names a folder with a
# libfastpsbt.a that is there already.
set -eu
here=$(cd "$(dirname "$0")" && pwd -P)
root=$(dirname "$here")
if [ -z "${LIBRARY:-}" ]; then
  "$root/library"
  LIBRARY=$root/target/library
fi
library=$(cd "$LIBRARY" && pwd -P)

out=$root/target/examples
mkdir -p "$out/c" "$out/rust"
for name in psbt_show figures; do
  "${CC:-cc}" -std=c99 -Wall -Wextra -pedantic -Werror -O2 -I"$root/include" "$here/c/$name.c" "$library/libfastpsbt.a" -o "$out/c/$name"
done
rustc --edition 2021 -O "$here/rust/psbt_show.rs" -L native="$library" -l static=fastpsbt -o "$out/rust/psbt_show"
"$out/c/figures"

# Both say the same of every stored file, and end alike.
for file in "$root"/crates/*_runs/data/*; do
  "$out/c/psbt_show" "$file" >"$out/c/said" 2>&1 && c=0 || c=$?
  "$out/rust/psbt_show" "$file" >"$out/rust/said" 2>&1 && rust=0 || rust=$?
  cmp "$out/c/said" "$out/rust/said"
  [ "$c" -eq "$rust" ]
done
"$out/c/psbt_show" "$root/crates/dump/stdin"
