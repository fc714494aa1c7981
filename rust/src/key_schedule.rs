//! The key schedule.

use crate::{ENC_KEY_LEN, FINISHED_VERIFY_DATA_LEN, MAC_KEY_LEN, MASTER_SECRET_LEN};
use crate::{Error, Keys, answered, ffi};

/// The master secret, from a pre-master secret of 48 bytes and two randoms of 32.
///
/// # Errors
/// [`Error::WrongSize`].
pub fn master_secret(
    pre_master: &[u8],
    client_random: &[u8],
    server_random: &[u8],
) -> Result<[u8; MASTER_SECRET_LEN], Error> {
    let mut out = [0; MASTER_SECRET_LEN];
    let answer = unsafe {
        ffi::noustrel_master_secret(
            pre_master.as_ptr(),
            pre_master.len(),
            client_random.as_ptr(),
            client_random.len(),
            server_random.as_ptr(),
            server_random.len(),
            out.as_mut_ptr(),
            out.len(),
        )
    };
    answered(answer).map(|()| out)
}

/// The key block, all of `out`: at most [`MAX_KEY_BLOCK`](crate::MAX_KEY_BLOCK) bytes, and for
/// [`key_halves`] 128. The master secret has 48 bytes, each random 32.
///
/// # Errors
/// [`Error::WrongSize`]; `out` stays as found.
pub fn key_block(
    master_secret: &[u8],
    client_random: &[u8],
    server_random: &[u8],
    out: &mut [u8],
) -> Result<(), Error> {
    let answer = unsafe {
        ffi::noustrel_key_block(
            master_secret.as_ptr(),
            master_secret.len(),
            client_random.as_ptr(),
            client_random.len(),
            server_random.as_ptr(),
            server_random.len(),
            out.as_mut_ptr(),
            out.len(),
        )
    };
    answered(answer)
}

/// The keys of both sides, copied out of a key block. Nothing wipes them.
#[derive(Clone)]
pub struct KeyHalves {
    client_mac_key: [u8; MAC_KEY_LEN],
    server_mac_key: [u8; MAC_KEY_LEN],
    client_enc_key: [u8; ENC_KEY_LEN],
    server_enc_key: [u8; ENC_KEY_LEN],
}

impl KeyHalves {
    /// The keys that the client seals with.
    pub fn client(&self) -> Keys<'_> {
        Keys {
            mac_key: &self.client_mac_key,
            enc_key: &self.client_enc_key,
        }
    }

    /// The keys that the server seals with.
    pub fn server(&self) -> Keys<'_> {
        Keys {
            mac_key: &self.server_mac_key,
            enc_key: &self.server_enc_key,
        }
    }
}

/// The keys of both sides out of a key block of [`CBC_KEY_BLOCK_LEN`](crate::CBC_KEY_BLOCK_LEN) bytes.
///
/// # Errors
/// [`Error::WrongSize`] if it has another length.
pub fn key_halves(key_block: &[u8]) -> Result<KeyHalves, Error> {
    let mut halves = KeyHalves {
        client_mac_key: [0; MAC_KEY_LEN],
        server_mac_key: [0; MAC_KEY_LEN],
        client_enc_key: [0; ENC_KEY_LEN],
        server_enc_key: [0; ENC_KEY_LEN],
    };
    let answer = unsafe {
        ffi::noustrel_key_halves(
            key_block.as_ptr(),
            key_block.len(),
            halves.client_mac_key.as_mut_ptr(),
            halves.client_mac_key.len(),
            halves.server_mac_key.as_mut_ptr(),
            halves.server_mac_key.len(),
            halves.client_enc_key.as_mut_ptr(),
            halves.client_enc_key.len(),
            halves.server_enc_key.as_mut_ptr(),
            halves.server_enc_key.len(),
        )
    };
    answered(answer).map(|()| halves)
}

/// Whose Finished message it is.
#[derive(Clone, Copy, Debug, PartialEq, Eq)]
pub enum Role {
    Client = 0,
    Server = 1,
}

/// The verify data of a Finished message, from a master secret of 48 bytes and a transcript hash of 32.
///
/// # Errors
/// [`Error::WrongSize`].
pub fn finished(
    master_secret: &[u8],
    role: Role,
    transcript_hash: &[u8],
) -> Result<[u8; FINISHED_VERIFY_DATA_LEN], Error> {
    let mut out = [0; FINISHED_VERIFY_DATA_LEN];
    let answer = unsafe {
        ffi::noustrel_finished(
            master_secret.as_ptr(),
            master_secret.len(),
            role as u32,
            transcript_hash.as_ptr(),
            transcript_hash.len(),
            out.as_mut_ptr(),
            out.len(),
        )
    };
    answered(answer).map(|()| out)
}
