//! The library's functions as include/noustrel.h has them; tools/header_check compares both with the source.
//!
//! SAFETY of every call in this crate: a slice's pointer is not null, aligned, and good for its length; what is written
//! is borrowed mutably, so it overlaps nothing else that is passed and nobody else has it; the pointers to numbers and
//! to a state come from references. No memory without a value is passed.

/// A running hash. Only `start` and `update` make one here, so its fill is never above 63.
#[derive(Clone)]
#[repr(C)]
pub struct Sm3 {
    pub state: [u32; 8],
    pub buffer: [u8; 64],
    pub buffer_len: usize,
    pub total_len: u64,
}

unsafe extern "C" {
    pub fn noustrel_seal(
        mac_key: *const u8,
        mac_key_len: usize,
        enc_key: *const u8,
        enc_key_len: usize,
        number: u64,
        content_type: u8,
        version: u16,
        iv: *const u8,
        iv_len: usize,
        text: *const u8,
        text_len: usize,
        out: *mut u8,
        out_len: usize,
        length: *mut usize,
    ) -> u32;
    pub fn noustrel_open(
        mac_key: *const u8,
        mac_key_len: usize,
        enc_key: *const u8,
        enc_key_len: usize,
        number: u64,
        content_type: u8,
        version: u16,
        record: *const u8,
        record_len: usize,
        out: *mut u8,
        out_len: usize,
        length: *mut usize,
        count: *mut usize,
    ) -> u32;
    pub fn noustrel_sm3(
        message: *const u8,
        message_len: usize,
        digest: *mut u8,
        digest_len: usize,
    ) -> u32;
    pub fn noustrel_hmac_sm3(
        key: *const u8,
        key_len: usize,
        message: *const u8,
        message_len: usize,
        mac: *mut u8,
        mac_len: usize,
    ) -> u32;
    pub fn noustrel_sm4_encrypt_block(
        key: *const u8,
        key_len: usize,
        block: *const u8,
        block_len: usize,
        out: *mut u8,
        out_len: usize,
    ) -> u32;
    pub fn noustrel_sm4_decrypt_block(
        key: *const u8,
        key_len: usize,
        block: *const u8,
        block_len: usize,
        out: *mut u8,
        out_len: usize,
    ) -> u32;
    pub fn noustrel_master_secret(
        pre_master: *const u8,
        pre_master_len: usize,
        client_random: *const u8,
        client_random_len: usize,
        server_random: *const u8,
        server_random_len: usize,
        out: *mut u8,
        out_len: usize,
    ) -> u32;
    pub fn noustrel_key_block(
        master_secret: *const u8,
        master_secret_len: usize,
        client_random: *const u8,
        client_random_len: usize,
        server_random: *const u8,
        server_random_len: usize,
        out: *mut u8,
        out_len: usize,
    ) -> u32;
    pub fn noustrel_key_halves(
        key_block: *const u8,
        key_block_len: usize,
        client_mac_key: *mut u8,
        client_mac_key_len: usize,
        server_mac_key: *mut u8,
        server_mac_key_len: usize,
        client_enc_key: *mut u8,
        client_enc_key_len: usize,
        server_enc_key: *mut u8,
        server_enc_key_len: usize,
    ) -> u32;
    pub fn noustrel_finished(
        master_secret: *const u8,
        master_secret_len: usize,
        role: u32,
        transcript_hash: *const u8,
        transcript_hash_len: usize,
        out: *mut u8,
        out_len: usize,
    ) -> u32;
    pub fn noustrel_sm3_start(h: *mut Sm3);
    pub fn noustrel_sm3_update(h: *mut Sm3, data: *const u8, data_len: usize) -> u32;
    pub fn noustrel_sm3_finish(h: *const Sm3, digest: *mut u8, digest_len: usize) -> u32;
}
