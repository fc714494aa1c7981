//! SM3 and HMAC-SM3.

use crate::{DIGEST_SIZE, MAC_LEN, always, ffi};

/// SM3 of a message.
///
/// ```
/// assert_eq!(noustrel::sm3(b"abc")[..4], [0x66, 0xc7, 0xf0, 0xf4]);
/// ```
pub fn sm3(message: &[u8]) -> [u8; DIGEST_SIZE] {
    let mut digest = [0; DIGEST_SIZE];
    let answer = unsafe {
        ffi::noustrel_sm3(
            message.as_ptr(),
            message.len(),
            digest.as_mut_ptr(),
            digest.len(),
        )
    };
    always(answer);
    digest
}

/// HMAC-SM3 of a message under a key of any length.
pub fn hmac_sm3(key: &[u8], message: &[u8]) -> [u8; MAC_LEN] {
    let mut mac = [0; MAC_LEN];
    let answer = unsafe {
        ffi::noustrel_hmac_sm3(
            key.as_ptr(),
            key.len(),
            message.as_ptr(),
            message.len(),
            mac.as_mut_ptr(),
            mac.len(),
        )
    };
    always(answer);
    mac
}

/// A running SM3, for a transcript that comes in parts.
///
/// ```
/// let mut transcript = noustrel::Sm3::new();
/// transcript.update(b"a");
/// transcript.update(b"bc");
/// assert_eq!(transcript.finish(), noustrel::sm3(b"abc"));
/// ```
#[derive(Clone)]
pub struct Sm3(ffi::Sm3);

impl Sm3 {
    #[must_use]
    pub fn new() -> Self {
        let mut h = ffi::Sm3 {
            state: [0; 8],
            buffer: [0; 64],
            buffer_len: 0,
            total_len: 0,
        };
        unsafe { ffi::noustrel_sm3_start(&mut h) };
        Self(h)
    }

    /// Takes data in.
    pub fn update(&mut self, data: &[u8]) {
        always(unsafe { ffi::noustrel_sm3_update(&mut self.0, data.as_ptr(), data.len()) });
    }

    /// The digest of all bytes taken in so far; the hash may go on.
    #[must_use]
    pub fn finish(&self) -> [u8; DIGEST_SIZE] {
        let mut digest = [0; DIGEST_SIZE];
        always(unsafe { ffi::noustrel_sm3_finish(&self.0, digest.as_mut_ptr(), digest.len()) });
        digest
    }
}

impl Default for Sm3 {
    fn default() -> Self {
        Self::new()
    }
}
