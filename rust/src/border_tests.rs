//! What the safe functions do not show: states out of range, outputs of wrong size, and the numbers
//! reported with a refusal.

use crate::{Header, Keys, ffi, key_halves, seal};

const HEADER: Header = Header {
    number: 5,
    content_type: 23,
    version: 0x0101,
};

fn opened(keys: Keys<'_>, record: &[u8], room: usize) -> (u32, usize, usize) {
    let mut out = vec![0; room];
    let (mut length, mut count) = (77, 77);
    let answer = unsafe {
        ffi::noustrel_open(
            keys.mac_key.as_ptr(),
            keys.mac_key.len(),
            keys.enc_key.as_ptr(),
            keys.enc_key.len(),
            HEADER.number,
            HEADER.content_type,
            HEADER.version,
            record.as_ptr(),
            record.len(),
            out.as_mut_ptr(),
            out.len(),
            &mut length,
            &mut count,
        )
    };
    (answer, length, count)
}

#[test]
fn numbers_are_reported_with_every_answer() {
    let block: Vec<u8> = (0..128).collect();
    let halves = key_halves(&block).unwrap();
    let keys = halves.client();
    let mut record = seal(keys, HEADER, &[7; 16], &[1; 40]).unwrap();
    assert_eq!(opened(keys, &record, 80), (0, 40, 11));
    assert_eq!(opened(keys, &record, 79), (2, 0, 0));
    assert_eq!(opened(keys, &record[..63], 80), (3, 0, 0));
    assert_eq!(opened(keys, &record[..65], 80), (4, 0, 0));
    assert_eq!(opened(keys, &[0; 16464], 80), (5, 0, 0));
    let short = Keys {
        mac_key: &block[..31],
        ..keys
    };
    assert_eq!(opened(short, &record, 80), (9, 0, 0));
    // the last byte of the padding, and then a byte of the text
    for place in [record.len() - 17, 16] {
        record[place] ^= 1;
        assert_eq!(opened(keys, &record, 80), (6, 0, 11));
        record[place] ^= 1;
    }
}

#[test]
fn sealing_reports_length_0_with_a_refusal() {
    let (key, text, mut out) = ([0; 32], [0; 16385], [0; 63]);
    for (text_len, iv_len, right) in [(16385, 16, 1), (0, 16, 2), (0, 15, 9)] {
        let mut length = 77;
        let answer = unsafe {
            ffi::noustrel_seal(
                key.as_ptr(),
                32,
                key.as_ptr(),
                16,
                0,
                0,
                0,
                key.as_ptr(),
                iv_len,
                text.as_ptr(),
                text_len,
                out.as_mut_ptr(),
                out.len(),
                &mut length,
            )
        };
        assert_eq!((answer, length), (right, 0));
    }
}

#[test]
fn a_state_out_of_range_is_answer_7() {
    for fill in [64, usize::MAX] {
        let mut h = ffi::Sm3 {
            state: [1; 8],
            buffer: [2; 64],
            buffer_len: fill,
            total_len: 3,
        };
        let mut digest = [4; 32];
        let updated = unsafe { ffi::noustrel_sm3_update(&mut h, [5; 200].as_ptr(), 200) };
        let after = (h.state, h.buffer, h.buffer_len, h.total_len);
        assert_eq!(updated, 7);
        assert_eq!(after, ([1; 8], [2; 64], fill, 3), "as found");
        let short = unsafe { ffi::noustrel_sm3_finish(&h, digest.as_mut_ptr(), 31) };
        assert_eq!((short, digest), (9, [4; 32]), "9 comes first");
        let finished = unsafe { ffi::noustrel_sm3_finish(&h, digest.as_mut_ptr(), 32) };
        assert_eq!((finished, digest), (7, [0; 32]));
        unsafe { ffi::noustrel_sm3_start(&mut h) };
        assert_eq!((h.state[0], h.buffer), (0x7380_166f, [0; 64]));
        assert_eq!((h.buffer_len, h.total_len), (0, 0));
    }
}

#[test]
fn outputs_of_wrong_size_are_answer_9() {
    let (key, random, mut out) = ([0; 48], [0; 32], [6; 64]);
    let (k, r, o) = (key.as_ptr(), random.as_ptr(), out.as_mut_ptr());
    for off in [-1_isize, 1] {
        let size = |right: usize| right.wrapping_add_signed(off);
        let answers = unsafe {
            [
                ffi::noustrel_sm3(k, 48, o, size(32)),
                ffi::noustrel_hmac_sm3(k, 48, r, 32, o, size(32)),
                ffi::noustrel_sm4_encrypt_block(k, 16, r, 16, o, size(16)),
                ffi::noustrel_sm4_decrypt_block(k, 16, r, 16, o, size(16)),
                ffi::noustrel_master_secret(k, 48, r, 32, r, 32, o, size(48)),
                ffi::noustrel_finished(k, 48, 0, r, 32, o, size(12)),
            ]
        };
        assert_eq!(answers, [9; 6]);
    }
    assert_eq!(out, [6; 64], "as found");
}

#[test]
fn a_key_of_wrong_size_leaves_all_four_as_found() {
    let block = [1; 129];
    for at in 0..5 {
        for off in [-1_isize, 1] {
            let mut sizes = [128_usize, 32, 32, 16, 16];
            sizes[at] = sizes[at].wrapping_add_signed(off);
            let mut keys = [[6; 33]; 4];
            let [cm, sm, ce, se] = keys.each_mut().map(|key| key.as_mut_ptr());
            let [n, a, b, c, d] = sizes;
            let answer =
                unsafe { ffi::noustrel_key_halves(block.as_ptr(), n, cm, a, sm, b, ce, c, se, d) };
            assert_eq!((answer, keys), (9, [[6; 33]; 4]), "{sizes:?}");
        }
    }
}
