#!/bin/sh
# Shows that the comparison can fail: damages a copy of the original, one way at a time, builds the harness over it and
# compares its lines with the given ones. A damage that no line shows is a hole in the records.
#
#     damage.sh ORIGINAL RECORDS LINES
#
# LINES are those of `answers` or of `model` for RECORDS. Needs the release builds of this folder. Leaves nothing behind.
set -eu
[ $# -eq 3 ] || { sed -n '2,8s/^# \{0,1\}//p' "$0" >&2; exit 2; }
original=$1 records=$2 lines=$3
here=$(cd "$(dirname "$0")" && pwd)
work=$(mktemp -d)
trap 'rm -rf "$work"' EXIT

made=0
noticed=0

# Builds over the copy, answers the calls and compares.
answer() {
  FASTPSBT_RS="$work/fastpsbt.rs" CARGO_TARGET_DIR="$work/target" \
    cargo build --quiet --offline --release --manifest-path "$here/Cargo.toml" -p harness >"$work/build" 2>&1 ||
    { echo "doesn't build: $1" >&2; cat "$work/build" >&2; exit 1; }
  # A damaged reader may stop: the lines that are missing then differ.
  "$work/target/release/harness" <"$records" >"$work/theirs" 2>/dev/null || true
  "$here/target/release/compare" "$lines" "$work/theirs" >"$work/said" && same=0 || same=$?
  [ "$same" -le 1 ] || { echo "not compared: $1" >&2; exit 1; }
}

damage() {
  sed "$2" "$original" >"$work/fastpsbt.rs"
  # One line, no more and no less.
  changed=$(diff "$original" "$work/fastpsbt.rs" | grep -c '^>' || true)
  [ "$changed" -eq 1 ] || { echo "changes $changed lines: $1" >&2; exit 1; }
  answer "$1"
  made=$((made + 1))
  if [ "$same" -eq 1 ]; then
    noticed=$((noticed + 1))
    echo "noticed  $1: $(tail -n 1 "$work/said")"
  else
    echo "UNSEEN   $1"
  fi
}

# First the copy as it is: it must agree, or nothing below means anything.
cp "$original" "$work/fastpsbt.rs"
answer "the copy as it is"
[ "$same" -eq 0 ] || { echo "the copy as it is differs:" >&2; cat "$work/said" >&2; exit 1; }
echo "as it is: $(tail -n 1 "$work/said")"

damage 'four bytes of the magic' 's/&raw\[\.\.5\] != MAGIC/raw[..4] != MAGIC[..4]/'
damage 'fd read with the greater byte first' 's/Ok(u16::from_le_bytes/Ok(u16::from_be_bytes/'
damage 'an equal key told as unsorted' 's/key_data < last\.key_data/key_data <= last.key_data/'
damage 'the value read before the order is judged' \
  's/return Err(PsbtError::UnsortedKeys);/cur.read_len_prefixed()?; &/'
damage 'one leftover byte let pass' 's/^        if cur\.remaining() > 0 {/        if cur.remaining() > 1 {/'
damage 'leftover bytes of a count told only after a good read' \
  's/^    if cur\.remaining() > 0 {/    if res.is_ok() \&\& cur.remaining() > 0 {/'
damage 'a size refused only if key data and value are wrong' 's/!= key_data_len ||/!= key_data_len \&\&/'
damage 'a key origin of a multiple of 2' 's/value_len % 4 != 0/value_len % 2 != 0/'
damage 'the second flag not looked at' 's/& 0b11 != 0/\& 0b01 != 0/'
damage 'a label without a code let pass' 's/if output\.sp_v0_label\.is_some() \&\&/if false \&\&/'
damage 'versions above 2 accepted' 's/psbt_version != 2/psbt_version < 2/'
damage 'the type of the tweak off by one' 's/PSBT_IN_SP_TWEAK: u8 = 0x20/PSBT_IN_SP_TWEAK: u8 = 0x21/'

damage 'a key found by its type alone' 's/\.then_with(|| p\.key_data\.cmp(key_data))//'
damage 'a listing that begins behind its type' 's/partition_point(|p| p\.key_type < key_type)/partition_point(|p| p.key_type <= key_type)/'
damage 'a listing of one pair at most' 's/^        self\.pairs\[start\.\.end\]\.iter()/        self.pairs[start..end.min(start + 1)].iter()/'
damage 'a sequence with the greatest byte first' 's/sequence = Some(u32::from_le_bytes/sequence = Some(u32::from_be_bytes/'
damage 'an amount with the greatest byte first' 's/^                    amount = Some(u64::from_le_bytes/                    amount = Some(u64::from_be_bytes/'
damage 'a script of fd bytes in a witness UTXO' 's/wutxo\[8\] > 0xfc/wutxo[8] > 0xfd/'
damage 'bytes behind the script of a witness UTXO' 's/wutxo\.len() != 8 + 1 + /wutxo.len() < 8 + 1 + /'
damage 'participants and one byte more' 's/value\.len() % 33 != 0/value.len() % 33 > 1/'
damage 'no participants at all' 's/if value\.is_empty() || value\.len() % 33/if value.len() % 33/'
damage 'a leaf hash left out of the key' 's/^        66 + 32$/        66/'
damage 'a nonce asked as a signature' 's/^            PSBT_IN_MUSIG2_PUB_NONCE,/            PSBT_IN_MUSIG2_PARTIAL_SIG,/'
damage 'a proof that is not always found' 's/get_sized(PSBT_IN_SP_DLEQ, scan_key)/&.filter(|v: \&\&[u8; 64]| v[0] < 128)/'
damage 'height 500,000,000 written' 's/h >= 500_000_000/h > 500_000_000/'
damage 'time 500,000,000 refused' 's/t < 500_000_000/t <= 500_000_000/'
damage 'the least height' 's/m\.max(h)/m.min(h)/'
damage 'both kinds of lock let pass' 's/req_height\.is_some() && req_time\.is_some()/req_height.is_none() \&\& req_time.is_none() \&\& false/'
damage 'a lock that is neither ours nor the fallback' 's/lock_time = lock_time\.max(t)/lock_time = lock_time.max(t) ^ 1/'
damage 'an absent fallback taken as 1' 's/fallback_locktime\.unwrap_or(0)/fallback_locktime.unwrap_or(1)/'
damage 'another sequence where it is absent' 's/0xFFFF_FFFF/0xFFFF_FFFE/'
damage 'an output named twice' 's/ || res\[index\]\.is_some()//'
damage 'a script that is not taproot' 's/ || !script\.is_p2tr()//'
damage 'an output with a script set again' 's/output\.script\.is_some() || res/res/'
damage 'an output that gets none' 's/output\.script\.is_none() && script\.is_none()/output.script.is_none() \&\& false \&\& script.is_none()/'
damage 'scripts set twice' 's/ || !self\.sp_output_scripts\.is_empty()//'
damage 'scripts set late' 's/self\.cached_unsigned_tx\.get()\.is_some() || //'

echo "$noticed of $made damages noticed"
[ "$noticed" -eq "$made" ]
