//! TLCP's record layer (GB/T 38636-2020) with SM4-CBC, its hash, MAC, cipher and key schedule: the
//! proved library Noustrel behind safe Rust. Slices go in; a [`Result`] comes out, whose errors are
//! the library's answer numbers.
//!
//! Two duties stay with the caller, since nothing can test them:
//! - the IV of a record is fresh and cannot be guessed: 16 bytes of the system's random source;
//! - no number is used twice under the same keys.
//!
//! What the library asks of pointers (not null, spans apart, nobody else at work on them) holds by
//! Rust's own rules: every span is a slice, and one that is written is borrowed for that alone. Keys
//! are borrowed; only [`KeyHalves`] holds copies. Nothing wipes it, or the stack.
//!
//! ```
//! use noustrel::{Error, Header};
//!
//! # fn fresh_iv() -> [u8; 16] { *b"not for real use" }
//! # fn main() -> Result<(), Error> {
//! // from the handshake
//! let (pre_master, client_random, server_random) = ([1; 48], [2; 32], [3; 32]);
//! let master = noustrel::master_secret(&pre_master, &client_random, &server_random)?;
//! let mut key_block = [0; noustrel::CBC_KEY_BLOCK_LEN];
//! noustrel::key_block(&master, &client_random, &server_random, &mut key_block)?;
//! let halves = noustrel::key_halves(&key_block)?;
//! let client = halves.client();
//!
//! // the client seals record number 0, the server opens it
//! let header = Header { number: 0, content_type: 23, version: noustrel::TLCP_RECORD_VERSION };
//! let record = noustrel::seal(client, header, &fresh_iv(), b"the last part counts")?;
//! assert_eq!(record.len(), noustrel::sealed_len(20));
//! assert_eq!(noustrel::open(client, header, &record)?, b"the last part counts");
//!
//! // the same bytes under another number are no record
//! let other = Header { number: 1, ..header };
//! assert_eq!(noustrel::open(client, other, &record), Err(Error::BadRecord));
//! # Ok(())
//! # }
//! ```
//!
//! Spans that overlap do not compile:
//!
//! ```compile_fail,E0502
//! # use noustrel::{Header, Keys};
//! # let (mac_key, enc_key, mut buffer) = ([0; 32], [0; 16], [0; 200]);
//! # let keys = Keys { mac_key: &mac_key, enc_key: &enc_key };
//! # let header = Header { number: 0, content_type: 23, version: 0x0101 };
//! noustrel::seal_into(keys, header, &[7; 16], &buffer[..20], &mut buffer);
//! ```

#[cfg(test)]
mod border_tests;
mod ffi;
mod hash;
mod key_schedule;
mod record;
mod sm4;

use std::fmt;

pub use hash::{Sm3, hmac_sm3, sm3};
pub use key_schedule::{KeyHalves, Role, finished, key_block, key_halves, master_secret};
pub use record::{Header, Keys, Opened, open, open_into, seal, seal_into};
pub use sm4::{sm4_decrypt_block, sm4_encrypt_block};

pub const DIGEST_SIZE: usize = 32;
pub const BLOCK_SIZE: usize = 16;
pub const MAC_LEN: usize = 32;
pub const MAC_KEY_LEN: usize = 32;
pub const ENC_KEY_LEN: usize = 16;
pub const IV_LEN: usize = 16;
/// Of what the MAC covers in front of the text.
pub const HEADER_LEN: usize = 13;
/// Of the pre-master secret, too.
pub const MASTER_SECRET_LEN: usize = 48;
/// Of the transcript hash, too.
pub const RANDOM_LEN: usize = 32;
pub const FINISHED_VERIFY_DATA_LEN: usize = 12;
pub const CBC_KEY_BLOCK_LEN: usize = 128;
pub const MAX_KEY_BLOCK: usize = 1024;
/// The longest text that is sealed.
pub const MAX_PLAINTEXT: usize = 16384;
/// The IV, a MAC and a block of padding.
pub const MIN_RECORD: usize = 64;
/// Room that suffices to open any record.
pub const MAX_BODY: usize = 16432;
/// Room that suffices to seal any text.
pub const MAX_RECORD: usize = 16448;
/// The usual version of a record, TLCP 1.1: a number, high byte first.
pub const TLCP_RECORD_VERSION: u16 = 0x0101;

/// The length of the record of a text.
pub const fn sealed_len(text_len: usize) -> usize {
    16 * (text_len / 16 + 4)
}

/// The length of the body in a record: the room that opening it takes. 0 where there is no body.
pub const fn body_len(record_len: usize) -> usize {
    record_len.saturating_sub(16)
}

/// Why a call was refused, by the library's answer numbers; 0 is no error.
#[derive(Clone, Copy, Debug, PartialEq, Eq, Hash)]
#[repr(u32)]
pub enum Error {
    /// More text than [`MAX_PLAINTEXT`].
    TooLong = 1,
    /// Output shorter than the sealed record, or than the body to open.
    NoRoom = 2,
    /// A record below [`MIN_RECORD`] bytes.
    Short = 3,
    /// A body whose length is no multiple of 16.
    Ragged = 4,
    /// A body above [`MAX_BODY`] bytes.
    TooBig = 5,
    /// Wrong padding or a wrong MAC: which of them is not told.
    BadRecord = 6,
    /// A hash state out of range. No state that this crate makes is.
    BadState = 7,
    /// A step on an ended opening. No function of this crate makes single steps.
    Ended = 8,
    /// A key, key block, IV, block, secret, random, hash or output of a length other than the one asked for.
    WrongSize = 9,
}

impl Error {
    /// The library's answer number.
    pub const fn number(self) -> u32 {
        self as u32
    }
}

impl fmt::Display for Error {
    fn fmt(&self, f: &mut fmt::Formatter<'_>) -> fmt::Result {
        f.write_str(match self {
            Error::TooLong => "the text is longer than a record may carry",
            Error::NoRoom => "the output has too little room",
            Error::Short => "the record is too short",
            Error::Ragged => "the record's body is no multiple of 16 bytes",
            Error::TooBig => "the record is too big",
            Error::BadRecord => "the record is not genuine",
            Error::BadState => "the hash state is out of range",
            Error::Ended => "the opening has ended",
            Error::WrongSize => "an argument has the wrong size",
        })
    }
}

impl std::error::Error for Error {}

/// What the library answered.
///
/// # Panics
/// On a number that it does not have: then another archive was linked than this crate is made for.
fn answered(answer: u32) -> Result<(), Error> {
    Err(match answer {
        0 => return Ok(()),
        1 => Error::TooLong,
        2 => Error::NoRoom,
        3 => Error::Short,
        4 => Error::Ragged,
        5 => Error::TooBig,
        6 => Error::BadRecord,
        7 => Error::BadState,
        8 => Error::Ended,
        9 => Error::WrongSize,
        other => panic!("libborder.a answered {other}, which is no answer of Noustrel"),
    })
}

/// The answer of a call that has no refusal, since no size can be wrong and no state out of range.
fn always(answer: u32) {
    assert_eq!(answer, 0, "libborder.a refused a call that has no refusal");
}
