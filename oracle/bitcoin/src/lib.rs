//! A stand-in for the crate `bitcoin`: the containers and the signatures that the original needs to compile, and nothing
//! else. It decides one thing, `is_p2tr`. What the port leaves behind (signature hashes, reading whole transactions)
//! answers an error or stops the program, so that no comparison can lean on it by mistake.

/// Something that the stand-in doesn't do.
#[derive(Debug)]
pub struct LeftBehind;

pub mod consensus {
    pub fn deserialize<T>(_bytes: &[u8]) -> Result<T, crate::LeftBehind> {
        Err(crate::LeftBehind)
    }
}

pub mod hashes {
    pub trait Hash {
        fn from_byte_array(bytes: [u8; 32]) -> Self;
        fn to_byte_array(self) -> [u8; 32];
    }
}

pub mod psbt {
    #[non_exhaustive]
    pub enum OutputType {
        Bare,
        Wpkh,
        Wsh,
        Sh,
        ShWpkh,
        ShWsh,
        Tr,
    }
}

pub mod script {
    use core::ops::Deref;

    #[derive(Debug)]
    #[repr(transparent)]
    pub struct Script([u8]);

    impl Script {
        pub fn from_bytes(bytes: &[u8]) -> &Script {
            // Sound: the layout is that of the bytes.
            unsafe { &*(bytes as *const [u8] as *const Script) }
        }
        pub fn as_bytes(&self) -> &[u8] {
            &self.0
        }
        /// BIP-341: version 1 and a push of 32 bytes. The one thing that is decided here.
        pub fn is_p2tr(&self) -> bool {
            self.0.len() == 34 && self.0[0] == 0x51 && self.0[1] == 0x20
        }
        pub fn is_witness_program(&self) -> bool {
            unimplemented!("left behind")
        }
        pub fn is_p2sh(&self) -> bool {
            unimplemented!("left behind")
        }
        pub fn is_p2wpkh(&self) -> bool {
            unimplemented!("left behind")
        }
        pub fn is_p2wsh(&self) -> bool {
            unimplemented!("left behind")
        }
    }

    #[derive(Debug, Clone, Default, PartialEq, Eq)]
    pub struct ScriptBuf(Vec<u8>);

    impl ScriptBuf {
        pub fn new() -> Self {
            ScriptBuf(Vec::new())
        }
        pub fn from_bytes(bytes: Vec<u8>) -> Self {
            ScriptBuf(bytes)
        }
    }

    impl Deref for ScriptBuf {
        type Target = Script;
        fn deref(&self) -> &Script {
            Script::from_bytes(&self.0)
        }
    }
}

pub mod secp256k1 {
    pub struct Message;

    impl From<crate::sighash::Hashed> for Message {
        fn from(_: crate::sighash::Hashed) -> Self {
            Message
        }
    }
}

pub mod sighash {
    use crate::{script::Script, Amount, EcdsaSighashType, LeftBehind};

    /// The hash that no call here gives.
    pub struct Hashed;

    pub struct SighashCache<T>(pub T);

    impl<T> SighashCache<T> {
        pub fn legacy_signature_hash(&self, _: usize, _: &Script, _: u32) -> Result<Hashed, LeftBehind> {
            Err(LeftBehind)
        }
        pub fn p2wpkh_signature_hash(
            &mut self,
            _: usize,
            _: &Script,
            _: Amount,
            _: EcdsaSighashType,
        ) -> Result<Hashed, LeftBehind> {
            Err(LeftBehind)
        }
        pub fn p2wsh_signature_hash(
            &mut self,
            _: usize,
            _: &Script,
            _: Amount,
            _: EcdsaSighashType,
        ) -> Result<Hashed, LeftBehind> {
            Err(LeftBehind)
        }
    }
}

pub mod transaction {
    #[derive(Debug, Clone, Copy, PartialEq, Eq)]
    pub struct Version(pub i32);
}

pub mod absolute {
    #[derive(Debug, Clone, Copy, PartialEq, Eq)]
    pub struct LockTime(u32);

    impl LockTime {
        pub fn from_consensus(number: u32) -> Self {
            LockTime(number)
        }
        pub fn to_consensus_u32(self) -> u32 {
            self.0
        }
    }
}

#[derive(Debug, Clone, Copy, PartialEq, Eq)]
pub struct Amount(u64);

impl Amount {
    pub fn from_sat(sat: u64) -> Self {
        Amount(sat)
    }
    pub fn to_sat(self) -> u64 {
        self.0
    }
}

#[derive(Debug, Clone, Copy, PartialEq, Eq)]
pub enum EcdsaSighashType {
    All,
}

impl EcdsaSighashType {
    pub fn from_standard(_: u32) -> Result<Self, LeftBehind> {
        Err(LeftBehind)
    }
    pub fn to_u32(self) -> u32 {
        unimplemented!("left behind")
    }
}

#[derive(Debug, Clone, Copy, PartialEq, Eq)]
pub struct Txid([u8; 32]);

impl hashes::Hash for Txid {
    fn from_byte_array(bytes: [u8; 32]) -> Self {
        Txid(bytes)
    }
    fn to_byte_array(self) -> [u8; 32] {
        self.0
    }
}

#[derive(Debug, Clone, Copy, PartialEq, Eq)]
pub struct OutPoint {
    pub txid: Txid,
    pub vout: u32,
}

#[derive(Debug, Clone, Copy, PartialEq, Eq)]
pub struct Sequence(pub u32);

impl Sequence {
    pub fn from_consensus(number: u32) -> Self {
        Sequence(number)
    }
    pub fn to_consensus_u32(self) -> u32 {
        self.0
    }
}

#[derive(Debug, Clone, Default, PartialEq, Eq)]
pub struct Witness(Vec<Vec<u8>>);

impl Witness {
    pub fn new() -> Self {
        Witness(Vec::new())
    }
}

#[derive(Debug, Clone, PartialEq, Eq)]
pub struct TxIn {
    pub previous_output: OutPoint,
    pub script_sig: script::ScriptBuf,
    pub sequence: Sequence,
    pub witness: Witness,
}

#[derive(Debug, Clone, PartialEq, Eq)]
pub struct TxOut {
    pub value: Amount,
    pub script_pubkey: script::ScriptBuf,
}

#[derive(Debug, Clone, PartialEq, Eq)]
pub struct Transaction {
    pub version: transaction::Version,
    pub lock_time: absolute::LockTime,
    pub input: Vec<TxIn>,
    pub output: Vec<TxOut>,
}
