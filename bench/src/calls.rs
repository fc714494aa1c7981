//! What is timed: the same work, done by each. A run reads the text or record of a room, writes its result to the room's output, and
//! says how long the result is. The Rust hands out a fresh vector, which is copied there: its allocation and the copy are timed.

use std::ffi::c_void;
use std::fmt;
use std::hint::black_box;

use gmcrypto_core::sm4::cipher::Sm4Cipher;
use gmcrypto_core::tlcp::key_schedule::derive_key_block;
use gmcrypto_core::tlcp::record::{RecordKeysCbc, deprotect_cbc, protect_cbc};
use gmcrypto_core::{hmac, sm3};
use rand_core::{TryCryptoRng, TryRngCore};

const MAC_KEY: [u8; 32] = *b"the MAC key of a record, 32 byte";
const KEY: [u8; 16] = *b"0123456789abcdef";
const IV: [u8; 16] = *b"fedcba9876543210";
const MASTER: [u8; 48] = *b"a master secret of forty-eight bytes, no secrets";
const RANDOM: [u8; 32] = *b"thirty-two bytes of no randomnes";
const NUMBER: u64 = 7;
const TYPE: u8 = 23;

/// The buffers that all share: a text, its record, and the output.
pub struct Room {
    text: Vec<u8>,
    record: Vec<u8>,
    pub out: Vec<u8>,
}

impl Room {
    pub fn new(size: usize) -> Room {
        let text = (0..size).map(|i| (i * 7 + 3) as u8).collect();
        let mut room = Room { text, record: Vec::new(), out: vec![0; size.max(1024) + 64] };
        if size <= 16384 {
            let len = our_seal(&mut room);
            room.record = room.out[..len].to_vec();
        }
        room
    }

    fn put(&mut self, result: &[u8]) -> usize {
        self.out[..result.len()].copy_from_slice(result);
        result.len()
    }
}

pub type Run = fn(&mut Room) -> usize;

type Bytes = *const u8;
type Span = *mut u8;

#[rustfmt::skip]
unsafe extern "C" {
    fn noustrel_seal(mac_key: Bytes, m: usize, enc_key: Bytes, e: usize, number: u64, kind: u8, version: u16,
        iv: Bytes, i: usize, text: Bytes, t: usize, out: Span, o: usize, length: *mut usize) -> u32;
    fn noustrel_open(mac_key: Bytes, m: usize, enc_key: Bytes, e: usize, number: u64, kind: u8, version: u16,
        record: Bytes, r: usize, out: Span, o: usize, length: *mut usize, count: *mut usize) -> u32;
    fn noustrel_sm3(message: Bytes, m: usize, digest: Span, d: usize) -> u32;
    fn noustrel_hmac_sm3(key: Bytes, k: usize, message: Bytes, m: usize, mac: Span, c: usize) -> u32;
    fn noustrel_sm4_encrypt_block(key: Bytes, k: usize, block: Bytes, b: usize, out: Span, o: usize) -> u32;
    fn noustrel_sm4_decrypt_block(key: Bytes, k: usize, block: Bytes, b: usize, out: Span, o: usize) -> u32;
    fn noustrel_key_block(master: Bytes, m: usize, client: Bytes, c: usize, server: Bytes, s: usize, out: Span, o: usize) -> u32;
    fn timing_sm4_cbc(key: Bytes, k: usize, iv: Bytes, i: usize, body: Span, b: usize);

    fn openssl_start(mac_key: Bytes, enc_key: Bytes);
    fn openssl_seal(number: u64, iv: Bytes, text: Bytes, len: usize, out: Span) -> usize;
    fn openssl_open(number: u64, record: Bytes, len: usize, out: Span) -> isize;
    fn openssl_sm3(data: Bytes, len: usize, digest: Span);
    fn openssl_hmac(key: Bytes, k: usize, data: Bytes, len: usize, mac: Span);
    fn openssl_sm4_key(key: Bytes, back: i32);
    fn openssl_sm4_block(key: Bytes, back: i32, block: Bytes, out: Span);
    fn openssl_key_block(master: Bytes, client: Bytes, server: Bytes, out: Span, len: usize);

    fn gcrypt_start(mac_key: Bytes, enc_key: Bytes);
    fn gcrypt_seal(number: u64, iv: Bytes, text: Bytes, len: usize, out: Span) -> usize;
    fn gcrypt_open(number: u64, record: Bytes, len: usize, out: Span) -> isize;
    fn gcrypt_sm3(data: Bytes, len: usize, digest: Span);
    fn gcrypt_hmac(key: Bytes, k: usize, data: Bytes, len: usize, mac: Span);
    fn gcrypt_sm4_key(key: Bytes);
    fn gcrypt_sm4_block(key: Bytes, back: i32, block: Bytes, out: Span);

    fn gcc_sm4_cbc(key: Bytes, iv: Bytes, body: Span, len: usize);
    fn gcc_sm4_block(key: Bytes, back: i32, block: Bytes, out: Span);
    fn clang_sm4_cbc(key: Bytes, iv: Bytes, body: Span, len: usize);
    fn clang_sm4_block(key: Bytes, back: i32, block: Bytes, out: Span);

    fn cpu_seconds() -> f64;
    fn stack_touched(call: extern "C" fn(*mut c_void), with: *mut c_void) -> usize;
}

// SAFETY, for all below: the spans are live, of the lengths given or of those that the callee asks for, and apart.

/// Once, before all else.
pub fn start() {
    unsafe {
        openssl_start(MAC_KEY.as_ptr(), KEY.as_ptr());
        gcrypt_start(MAC_KEY.as_ptr(), KEY.as_ptr());
    }
}

/// The processor's time of this thread: what else the machine runs in between does not count.
pub fn now() -> f64 {
    unsafe { cpu_seconds() }
}

// ---- records

#[rustfmt::skip]
fn our_seal(r: &mut Room) -> usize {
    let mut length = 0;
    let answer = unsafe {
        noustrel_seal(MAC_KEY.as_ptr(), 32, KEY.as_ptr(), 16, NUMBER, TYPE, 0x0101, IV.as_ptr(), 16,
            r.text.as_ptr(), r.text.len(), r.out.as_mut_ptr(), r.out.len(), &mut length)
    };
    assert_eq!(answer, 0);
    length
}

/// The text's length, and a number that no text has where the record is refused.
const REFUSED: usize = usize::MAX;

#[rustfmt::skip]
fn our_answer(r: &mut Room) -> usize {
    let (mut length, mut count) = (0, 0);
    let answer = unsafe {
        noustrel_open(MAC_KEY.as_ptr(), 32, KEY.as_ptr(), 16, NUMBER, TYPE, 0x0101,
            r.record.as_ptr(), r.record.len(), r.out.as_mut_ptr(), r.out.len(), &mut length, &mut count)
    };
    if answer == 0 { length } else { REFUSED }
}

/// Yields the IV in the place of a random one.
struct Given;

impl TryRngCore for Given {
    type Error = fmt::Error;

    fn try_fill_bytes(&mut self, out: &mut [u8]) -> Result<(), fmt::Error> {
        out.copy_from_slice(&IV);
        Ok(())
    }
}

impl TryCryptoRng for Given {}

fn rust_keys() -> RecordKeysCbc {
    let mut block = [0; 128];
    block[..32].copy_from_slice(&MAC_KEY);
    block[64..80].copy_from_slice(&KEY);
    RecordKeysCbc::client_half(&block)
}

fn rust_seal(r: &mut Room) -> usize {
    let record = protect_cbc(&rust_keys(), NUMBER, TYPE, [1, 1], &r.text, &mut Given).unwrap();
    r.put(&record)
}

fn rust_answer(r: &mut Room) -> usize {
    match deprotect_cbc(&rust_keys(), NUMBER, TYPE, [1, 1], &r.record) {
        Some(text) => r.put(&text),
        None => REFUSED,
    }
}

fn openssl_answer(r: &mut Room) -> usize {
    let len = unsafe { openssl_open(NUMBER, r.record.as_ptr(), r.record.len(), r.out.as_mut_ptr()) };
    usize::try_from(len).unwrap_or(REFUSED)
}

fn gcrypt_answer(r: &mut Room) -> usize {
    let len = unsafe { gcrypt_open(NUMBER, r.record.as_ptr(), r.record.len(), r.out.as_mut_ptr()) };
    usize::try_from(len).unwrap_or(REFUSED)
}

/// Each seal and open, by its composed function.
pub const SEAL: [Option<Run>; 4] = [
    Some(our_seal),
    Some(rust_seal),
    Some(|r| unsafe { openssl_seal(NUMBER, IV.as_ptr(), r.text.as_ptr(), r.text.len(), r.out.as_mut_ptr()) }),
    Some(|r| unsafe { gcrypt_seal(NUMBER, IV.as_ptr(), r.text.as_ptr(), r.text.len(), r.out.as_mut_ptr()) }),
];
pub const OPEN: [Option<Run>; 4] = [Some(our_answer), Some(rust_answer), Some(openssl_answer), Some(gcrypt_answer)];

/// All refuse the same records: one bit turned, in each block.
pub fn check_refusals() {
    for size in [0, 15, 16, 100] {
        let blocks = Room::new(size).record.len() / 16;
        for block in 0..blocks {
            for open in OPEN.into_iter().flatten() {
                let mut room = Room::new(size);
                assert_eq!(open(&mut room), size, "a good record is refused");
                room.record[16 * block + block % 16] ^= 1;
                assert_eq!(open(&mut room), REFUSED, "a bad record is accepted");
            }
        }
    }
}

// ---- hash, MAC, key block

fn our_sm3(r: &mut Room) -> usize {
    unsafe { noustrel_sm3(r.text.as_ptr(), r.text.len(), r.out.as_mut_ptr(), 32) };
    32
}

fn our_hmac(r: &mut Room) -> usize {
    unsafe { noustrel_hmac_sm3(KEY.as_ptr(), 16, r.text.as_ptr(), r.text.len(), r.out.as_mut_ptr(), 32) };
    32
}

fn our_key_block(r: &mut Room) -> usize {
    let (master, random) = (MASTER.as_ptr(), RANDOM.as_ptr());
    unsafe { noustrel_key_block(master, 48, random, 32, random, 32, r.out.as_mut_ptr(), 128) };
    128
}

fn rust_key_block(r: &mut Room) -> usize {
    derive_key_block(&MASTER, &RANDOM, &RANDOM, &mut r.out[..128]);
    128
}

fn openssl_block(r: &mut Room) -> usize {
    unsafe { openssl_key_block(MASTER.as_ptr(), RANDOM.as_ptr(), RANDOM.as_ptr(), r.out.as_mut_ptr(), 128) };
    128
}

/// A call that writes `$len` bytes to the output.
macro_rules! writes {
    ($len:expr, |$r:ident| $call:expr) => {
        Some(|$r: &mut Room| {
            unsafe { $call };
            $len
        })
    };
}

pub const SM3: [Option<Run>; 4] = [
    Some(our_sm3),
    Some(|r| r.put(&sm3::hash(&r.text))),
    writes!(32, |r| openssl_sm3(r.text.as_ptr(), r.text.len(), r.out.as_mut_ptr())),
    writes!(32, |r| gcrypt_sm3(r.text.as_ptr(), r.text.len(), r.out.as_mut_ptr())),
];
pub const HMAC: [Option<Run>; 4] = [
    Some(our_hmac),
    Some(|r| r.put(&hmac::hmac_sm3(&KEY, &r.text))),
    writes!(32, |r| openssl_hmac(KEY.as_ptr(), 16, r.text.as_ptr(), r.text.len(), r.out.as_mut_ptr())),
    writes!(32, |r| gcrypt_hmac(KEY.as_ptr(), 16, r.text.as_ptr(), r.text.len(), r.out.as_mut_ptr())),
];
/// libgcrypt has no such derivation.
pub const KEY_BLOCK: [Option<Run>; 3] = [Some(our_key_block), Some(rust_key_block), Some(openssl_block)];

// ---- SM4: each run expands the key

fn rust_block(r: &mut Room, back: bool) -> usize {
    let cipher = black_box(Sm4Cipher::new(&KEY));
    let mut block = IV;
    if back { cipher.decrypt_block(&mut block) } else { cipher.encrypt_block(&mut block) }
    r.put(&block)
}

/// CBC in place over the text's whole blocks, from the output's start.
fn body(r: &mut Room) -> (Span, usize) {
    let len = r.text.len() / 16 * 16;
    r.out[..len].copy_from_slice(&r.text[..len]);
    (r.out.as_mut_ptr(), len)
}

fn our_cbc(r: &mut Room) -> usize {
    let (span, len) = body(r);
    unsafe { timing_sm4_cbc(KEY.as_ptr(), 16, IV.as_ptr(), 16, span, len) };
    len
}

fn rust_cbc(r: &mut Room) -> usize {
    let (_, len) = body(r);
    let cipher = black_box(Sm4Cipher::new(&KEY));
    let mut prev = IV;
    for chunk in r.out[..len].chunks_exact_mut(16) {
        let block: &mut [u8; 16] = chunk.try_into().unwrap();
        (0..16).for_each(|j| block[j] ^= prev[j]);
        cipher.encrypt_block(block);
        prev = *block;
    }
    len
}

fn gcc_cbc(r: &mut Room) -> usize {
    let (span, len) = body(r);
    unsafe { gcc_sm4_cbc(KEY.as_ptr(), IV.as_ptr(), span, len) };
    len
}

fn clang_cbc(r: &mut Room) -> usize {
    let (span, len) = body(r);
    unsafe { clang_sm4_cbc(KEY.as_ptr(), IV.as_ptr(), span, len) };
    len
}

#[rustfmt::skip]
pub const SM4_ENC: [Option<Run>; 6] = [
    writes!(16, |r| noustrel_sm4_encrypt_block(KEY.as_ptr(), 16, IV.as_ptr(), 16, r.out.as_mut_ptr(), 16)),
    Some(|r| rust_block(r, false)),
    writes!(16, |r| openssl_sm4_block(KEY.as_ptr(), 0, IV.as_ptr(), r.out.as_mut_ptr())),
    writes!(16, |r| gcrypt_sm4_block(KEY.as_ptr(), 0, IV.as_ptr(), r.out.as_mut_ptr())),
    writes!(16, |r| gcc_sm4_block(KEY.as_ptr(), 0, IV.as_ptr(), r.out.as_mut_ptr())),
    writes!(16, |r| clang_sm4_block(KEY.as_ptr(), 0, IV.as_ptr(), r.out.as_mut_ptr())),
];
#[rustfmt::skip]
pub const SM4_DEC: [Option<Run>; 6] = [
    writes!(16, |r| noustrel_sm4_decrypt_block(KEY.as_ptr(), 16, IV.as_ptr(), 16, r.out.as_mut_ptr(), 16)),
    Some(|r| rust_block(r, true)),
    writes!(16, |r| openssl_sm4_block(KEY.as_ptr(), 1, IV.as_ptr(), r.out.as_mut_ptr())),
    writes!(16, |r| gcrypt_sm4_block(KEY.as_ptr(), 1, IV.as_ptr(), r.out.as_mut_ptr())),
    writes!(16, |r| gcc_sm4_block(KEY.as_ptr(), 1, IV.as_ptr(), r.out.as_mut_ptr())),
    writes!(16, |r| clang_sm4_block(KEY.as_ptr(), 1, IV.as_ptr(), r.out.as_mut_ptr())),
];
/// The key alone: nothing is written.
#[rustfmt::skip]
pub const SM4_KEY: [Option<Run>; 6] = [
    writes!(0, |r| timing_sm4_cbc(KEY.as_ptr(), 16, IV.as_ptr(), 16, r.out.as_mut_ptr(), 0)),
    Some(|_r| { black_box(Sm4Cipher::new(&KEY)); 0 }),
    writes!(0, |_r| openssl_sm4_key(KEY.as_ptr(), 0)),
    writes!(0, |_r| gcrypt_sm4_key(KEY.as_ptr())),
    writes!(0, |r| gcc_sm4_cbc(KEY.as_ptr(), IV.as_ptr(), r.out.as_mut_ptr(), 0)),
    writes!(0, |r| clang_sm4_cbc(KEY.as_ptr(), IV.as_ptr(), r.out.as_mut_ptr(), 0)),
];
pub const SM4_CBC: [Option<Run>; 6] = [Some(our_cbc), Some(rust_cbc), None, None, Some(gcc_cbc), Some(clang_cbc)];

// ---- stack

struct Job(Run, Room);

extern "C" fn work(job: *mut c_void) {
    // SAFETY: stacks hands in a live job, and waits.
    let Job(run, room) = unsafe { &mut *job.cast::<Job>() };
    black_box(run(room));
}

/// The peak stack of opening the longest sealed record, in bytes, less that of a thread that does nothing.
pub fn stacks() -> Vec<(&'static str, usize)> {
    let touched = |run: Run| {
        let mut job = Job(run, Room::new(16384));
        unsafe { stack_touched(work, (&raw mut job).cast()) }
    };
    let nothing = touched(|_| 0);
    let opens = ["ours", "rust"].into_iter().zip(OPEN.into_iter().flatten());
    opens.map(|(name, open)| (name, touched(open) - nothing)).collect()
}
