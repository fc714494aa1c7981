//! Single blocks of SM4.

use crate::{BLOCK_SIZE, Error, answered, ffi};

/// One block of SM4, enciphered. Key and block have 16 bytes each.
///
/// # Errors
/// [`Error::WrongSize`].
pub fn sm4_encrypt_block(key: &[u8], block: &[u8]) -> Result<[u8; BLOCK_SIZE], Error> {
    let mut out = [0; BLOCK_SIZE];
    let answer = unsafe {
        ffi::noustrel_sm4_encrypt_block(
            key.as_ptr(),
            key.len(),
            block.as_ptr(),
            block.len(),
            out.as_mut_ptr(),
            out.len(),
        )
    };
    answered(answer).map(|()| out)
}

/// One block of SM4, deciphered. Key and block have 16 bytes each.
///
/// # Errors
/// [`Error::WrongSize`].
pub fn sm4_decrypt_block(key: &[u8], block: &[u8]) -> Result<[u8; BLOCK_SIZE], Error> {
    let mut out = [0; BLOCK_SIZE];
    let answer = unsafe {
        ffi::noustrel_sm4_decrypt_block(
            key.as_ptr(),
            key.len(),
            block.as_ptr(),
            block.len(),
            out.as_mut_ptr(),
            out.len(),
        )
    };
    answered(answer).map(|()| out)
}
