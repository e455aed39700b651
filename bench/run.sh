#!/bin/sh
# Times the library beside the original, on the same files in one run.
#
#     FASTPSBT_RS=ORIGINAL [LIBRARY=FOLDER] run.sh
#
# LIBRARY is a folder with libfastpsbt.a for this machine; without it the library is proved and built first. It needs cargo and no network.
set -eu
: "${FASTPSBT_RS:?the path of the original}"
here=$(cd "$(dirname "$0")" && pwd -P)
root=$(dirname "$here")
if [ -z "${LIBRARY:-}" ]; then
  "$root/library"
  LIBRARY=$root/target/library
fi
LIBRARY=$(cd "$LIBRARY" && pwd -P)
FASTPSBT_RS=$(cd "$(dirname "$FASTPSBT_RS")" && pwd -P)/$(basename "$FASTPSBT_RS")
export LIBRARY FASTPSBT_RS
cargo run --quiet --offline --release --manifest-path "$here/Cargo.toml"
