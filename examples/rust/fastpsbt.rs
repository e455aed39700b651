//! A small safe wrapper of the library, for the calls that the example and the bench need; `include/fastpsbt.h` has them
//! all. What a caller owes from C (valid, aligned, apart) Rust's slices keep by themselves, so no call here is unsafe to
//! its user. Nothing is allocated.

// Numbers of the header, by its names without `FASTPSBT_`: how many words things take, and at which word of an answer a
// value stands.
const OK: u64 = 0;
const ANSWER_WORDS: usize = 8;
pub const PAIR_WORDS: usize = 4;
pub const MAP_WORDS: usize = 2;
pub const SCRIPT_BYTES: usize = 35;
const VALUES: usize = 0;
const REPORT_INPUTS: usize = 4;
const REPORT_OUTPUTS: usize = 5;
const PLACE_START: usize = 1;
const PLACE_LENGTH: usize = 2;
const NUMBER: usize = 1;
const LOCK_WHAT: usize = 1;
const LOCK_NUMBER: usize = 2;
const LOCK_INPUT: usize = 3;
const LOCK_HEIGHT: u64 = 1;
const LOCK_TIME: u64 = 2;
const STATE_SET: usize = 1;
const STATE_WRITTEN: usize = 2;
const TX_LENGTH: usize = 1;
const TX_SET: usize = 2;
const TX_WRITTEN: usize = 3;

/// An answer's words: how many values there are, the values, and zeros.
pub type Words = [u64; ANSWER_WORDS];

/// A refusal, by its number.
#[derive(Clone, Copy, Debug, PartialEq, Eq)]
pub struct Refused(pub u64);

/// A file that was parsed, with the tables that say where its pairs stand.
pub struct Psbt<'a> {
    file: &'a [u8],
    pairs: &'a [u32],
    maps: &'a [u32],
    /// An accepted parse's words: any others are refused with 24 by every call.
    report: Words,
}

/// Whether scripts were set and a transaction was written.
#[derive(Clone, Copy, Default)]
pub struct State {
    set: u64,
    written: u64,
}

/// What decides the lock time, and the input that asks for it.
pub enum Lock {
    Fallback(u64),
    Height { number: u64, input: u64 },
    Time { number: u64, input: u64 },
}

// Declares a call on a parsed file with the parameters that come between the report and the answer.
macro_rules! declared {
    ($($name:ident($($more:ty),*);)*) => {
        extern "C" {
            fn fastpsbt_parse(
                file: *const u8, file_len: usize, pairs: *mut u32, pairs_len: usize,
                maps: *mut u32, maps_len: usize, answer: *mut u64, answer_len: usize,
            ) -> u64;
            $(fn $name(
                file: *const u8, file_len: usize, pairs: *const u32, pairs_len: usize,
                maps: *const u32, maps_len: usize, report: *const u64, report_len: usize,
                $(_: $more,)* answer: *mut u64, answer_len: usize,
            ) -> u64;)*
        }
    };
}

declared! {
    fastpsbt_lock_decided();
    fastpsbt_set_sp_output_scripts(*const u64, usize, *const u8, usize, u64, u64, *mut u8, usize);
    fastpsbt_unsigned_tx(u64, u64, *const u8, usize, *mut u8, usize);
    fastpsbt_map_get(u64, u8, *const u8, usize);
    fastpsbt_input_non_witness_utxo(u64);
    fastpsbt_input_witness_utxo(u64);
    fastpsbt_input_sighash_type(u64);
    fastpsbt_input_redeem_script(u64);
    fastpsbt_input_witness_script(u64);
    fastpsbt_input_final_scriptsig(u64);
    fastpsbt_input_final_scriptwitness(u64);
    fastpsbt_input_previous_txid(u64);
    fastpsbt_input_output_index(u64);
    fastpsbt_input_sequence(u64);
    fastpsbt_input_required_time_locktime(u64);
    fastpsbt_input_required_height_locktime(u64);
    fastpsbt_input_sp_tweak(u64);
}

// Makes a call on a parsed file: its answer's words, or the refusal.
macro_rules! asked {
    ($psbt:expr, $name:ident($($more:expr),*)) => {{
        let psbt = $psbt;
        let mut answer: Words = [0; ANSWER_WORDS];
        // Safety: each pointer and length is a slice's; `answer` and a buffer that is written are borrowed for this call alone.
        let number = unsafe {
            $name(
                psbt.file.as_ptr(), psbt.file.len(), psbt.pairs.as_ptr(), psbt.pairs.len(), psbt.maps.as_ptr(), psbt.maps.len(),
                psbt.report.as_ptr(), psbt.report.len(), $($more,)* answer.as_mut_ptr(), answer.len(),
            )
        };
        if number == OK { Ok(answer) } else { Err(Refused(number)) }
    }};
}

// The fields of an input: parts of the file, and numbers.
macro_rules! fields {
    ($($name:ident: $call:ident, $kind:ident -> $result:ty;)*) => {
        $(pub fn $name(&self, i: u64) -> Result<Option<$result>, Refused> {
            asked!(self, $call(i)).map(|answer| self.$kind(&answer))
        })*
    };
}

impl<'a> Psbt<'a> {
    /// Parses a file. `PAIR_WORDS` words of `pairs` are used for each pair, `MAP_WORDS` words of `maps` for each map.
    pub fn parse(file: &'a [u8], pairs: &'a mut [u32], maps: &'a mut [u32]) -> Result<Self, Refused> {
        let mut report: Words = [0; ANSWER_WORDS];
        // Safety: each pointer and length is a slice's, and those that are written are borrowed as such.
        let number = unsafe {
            fastpsbt_parse(
                file.as_ptr(),
                file.len(),
                pairs.as_mut_ptr(),
                pairs.len(),
                maps.as_mut_ptr(),
                maps.len(),
                report.as_mut_ptr(),
                report.len(),
            )
        };
        if number == OK {
            Ok(Psbt { file, pairs, maps, report })
        } else {
            Err(Refused(number))
        }
    }

    pub fn inputs(&self) -> u64 {
        self.report[REPORT_INPUTS]
    }

    pub fn outputs(&self) -> u64 {
        self.report[REPORT_OUTPUTS]
    }

    // The part of the file that an answer names.
    fn part(&self, answer: &Words) -> Option<&'a [u8]> {
        (answer[VALUES] != 0).then(|| &self.file[answer[PLACE_START] as usize..][..answer[PLACE_LENGTH] as usize])
    }

    fn number(&self, answer: &Words) -> Option<u64> {
        (answer[VALUES] != 0).then_some(answer[NUMBER])
    }

    /// The value of a key of map number `m`.
    pub fn get(&self, m: u64, key_type: u8, key_data: &[u8]) -> Result<Option<&'a [u8]>, Refused> {
        asked!(self, fastpsbt_map_get(m, key_type, key_data.as_ptr(), key_data.len())).map(|answer| self.part(&answer))
    }

    fields! {
        non_witness_utxo: fastpsbt_input_non_witness_utxo, part -> &'a [u8];
        witness_utxo: fastpsbt_input_witness_utxo, part -> &'a [u8];
        sighash_type: fastpsbt_input_sighash_type, number -> u64;
        redeem_script: fastpsbt_input_redeem_script, part -> &'a [u8];
        witness_script: fastpsbt_input_witness_script, part -> &'a [u8];
        final_scriptsig: fastpsbt_input_final_scriptsig, part -> &'a [u8];
        final_scriptwitness: fastpsbt_input_final_scriptwitness, part -> &'a [u8];
        previous_txid: fastpsbt_input_previous_txid, part -> &'a [u8];
        output_index: fastpsbt_input_output_index, number -> u64;
        sequence: fastpsbt_input_sequence, number -> u64;
        required_time_locktime: fastpsbt_input_required_time_locktime, number -> u64;
        required_height_locktime: fastpsbt_input_required_height_locktime, number -> u64;
        sp_tweak: fastpsbt_input_sp_tweak, part -> &'a [u8];
    }

    /// What decides the lock time.
    pub fn lock_decided(&self) -> Result<Lock, Refused> {
        let answer = asked!(self, fastpsbt_lock_decided())?;
        let (number, input) = (answer[LOCK_NUMBER], answer[LOCK_INPUT]);
        Ok(match answer[LOCK_WHAT] {
            LOCK_HEIGHT => Lock::Height { number, input },
            LOCK_TIME => Lock::Time { number, input },
            _ => Lock::Fallback(number),
        })
    }

    /// Sets scripts, each given in `list` by output, start in `buffer` and length. `scripts` takes
    /// `SCRIPT_BYTES` bytes for each output.
    pub fn set_sp_output_scripts(
        &self,
        list: &[u64],
        buffer: &[u8],
        state: State,
        scripts: &mut [u8],
    ) -> Result<State, Refused> {
        let answer = asked!(
            self,
            fastpsbt_set_sp_output_scripts(
                list.as_ptr(),
                list.len(),
                buffer.as_ptr(),
                buffer.len(),
                state.set,
                state.written,
                scripts.as_mut_ptr(),
                scripts.len()
            )
        )?;
        Ok(State { set: answer[STATE_SET], written: answer[STATE_WRITTEN] })
    }

    /// Writes the unsigned transaction to the front of `out`: that part of it, and the new state.
    pub fn unsigned_tx<'b>(
        &self,
        state: State,
        scripts: &[u8],
        out: &'b mut [u8],
    ) -> Result<(&'b [u8], State), Refused> {
        let answer = asked!(
            self,
            fastpsbt_unsigned_tx(
                state.set,
                state.written,
                scripts.as_ptr(),
                scripts.len(),
                out.as_mut_ptr(),
                out.len()
            )
        )?;
        Ok((&out[..answer[TX_LENGTH] as usize], State { set: answer[TX_SET], written: answer[TX_WRITTEN] }))
    }
}
