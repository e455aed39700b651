//! The calls by their numbers. A later call gets the next number, and none ever changes.

pub const PARSE: u8 = 0;
pub const LOCK: u8 = 1;
pub const SET: u8 = 2;
pub const TX: u8 = 3;
pub const GET: u8 = 4;
pub const LISTED: u8 = 5;
pub const NTH: u8 = 6;
pub const GLOBAL_SHARE: u8 = 7;
pub const GLOBAL_PROOF: u8 = 8;
pub const GLOBAL_SHARES: u8 = 9;
pub const GLOBAL_PROOFS: u8 = 10;
pub const IN_NON_WITNESS_UTXO: u8 = 11;
pub const IN_WITNESS_UTXO: u8 = 12;
pub const IN_SIGHASH_TYPE: u8 = 13;
pub const IN_REDEEM_SCRIPT: u8 = 14;
pub const IN_WITNESS_SCRIPT: u8 = 15;
pub const IN_FINAL_SCRIPTSIG: u8 = 16;
pub const IN_FINAL_SCRIPTWITNESS: u8 = 17;
pub const IN_PREVIOUS_TXID: u8 = 18;
pub const IN_OUTPUT_INDEX: u8 = 19;
pub const IN_SEQUENCE: u8 = 20;
pub const IN_REQUIRED_TIME: u8 = 21;
pub const IN_REQUIRED_HEIGHT: u8 = 22;
pub const IN_SP_TWEAK: u8 = 23;
pub const IN_KEYS: u8 = 24;
pub const IN_DERIVATIONS: u8 = 25;
pub const IN_SHARE: u8 = 26;
pub const IN_PROOF: u8 = 27;
pub const IN_SHARES: u8 = 28;
pub const IN_PROOFS: u8 = 29;
pub const IN_SPEND_DERIVATIONS: u8 = 30;
pub const IN_NONCE: u8 = 31;
pub const IN_SIGNATURE: u8 = 32;
pub const IN_PARTICIPANTS: u8 = 33;
pub const IN_PARTICIPANT_COUNT: u8 = 34;
pub const IN_PARTICIPANT: u8 = 35;
pub const IN_UTXO: u8 = 36;
pub const OUT_REDEEM_SCRIPT: u8 = 37;
pub const OUT_WITNESS_SCRIPT: u8 = 38;
pub const OUT_AMOUNT: u8 = 39;
pub const OUT_SCRIPT: u8 = 40;
pub const OUT_SP_INFO: u8 = 41;
pub const OUT_SP_LABEL: u8 = 42;
pub const OUT_KEYS: u8 = 43;
pub const OUT_DERIVATIONS: u8 = 44;
pub const OUT_PARTICIPANTS: u8 = 45;
pub const OUT_PARTICIPANT_COUNT: u8 = 46;
pub const OUT_PARTICIPANT: u8 = 47;
/// The script of an output: its own, or the one that was set.
pub const SCRIPT: u8 = 48;
/// What `GET` finds, as its bytes.
pub const GET_PART: u8 = 49;
pub const NTH_KEY: u8 = 50;
pub const NTH_VALUE: u8 = 51;
pub const IN_UTXO_SCRIPT: u8 = 52;
pub const SCRIPT_PART: u8 = 53;
/// The setter over records, with two of them.
pub const SET_TWO: u8 = 54;

/// How many there are.
pub const KNOWN: u8 = 55;
