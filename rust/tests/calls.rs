//! The wrapper over the linked archive. Values that are not published are OpenSSL's, as in the
//! programs key_schedule_vectors and record_vectors.

use noustrel::*;

fn hex(bytes: &[u8]) -> String {
    bytes.iter().map(|b| format!("{b:02x}")).collect()
}

fn bytes(step: usize, first: usize, n: usize) -> Vec<u8> {
    (0..n).map(|i| (step * i + first) as u8).collect()
}

const HEADER: Header = Header {
    number: 0x0102_0304_0506_0708,
    content_type: 23,
    version: TLCP_RECORD_VERSION,
};

const IV: [u8; 16] = [
    0x0f, 0x1e, 0x2d, 0x3c, 0x4b, 0x5a, 0x69, 0x78, 0x87, 0x96, 0xa5, 0xb4, 0xc3, 0xd2, 0xe1, 0xf0,
];

/// A record as any lawful peer may make it: a text, its MAC and the padding given, in CBC by hand.
fn by_hand(keys: Keys<'_>, header: Header, text: &[u8], padding: &[u8]) -> Vec<u8> {
    let mut covered = header.number.to_be_bytes().to_vec();
    covered.push(header.content_type);
    covered.extend(header.version.to_be_bytes());
    covered.extend((text.len() as u16).to_be_bytes());
    covered.extend(text);
    let body = [text, &hmac_sm3(keys.mac_key, &covered), padding].concat();
    let mut record = IV.to_vec();
    for block in body.chunks(BLOCK_SIZE) {
        let before = &record[record.len() - BLOCK_SIZE..];
        let mixed: Vec<u8> = block.iter().zip(before).map(|(a, b)| a ^ b).collect();
        record.extend(sm4_encrypt_block(keys.enc_key, &mixed).expect("a whole number of blocks"));
    }
    record
}

/// All lawful paddings of a text of this length.
fn paddings(text_len: usize) -> impl Iterator<Item = Vec<u8>> {
    (15 - text_len % 16..256)
        .step_by(16)
        .map(|pad| vec![pad as u8; pad + 1])
}

#[test]
fn sm3_is_the_published_one() {
    let of_abc = "66c7f0f462eeedd9d1f2d46bdc10e4e24167c4875cf2f7a2297da02b8f4ba8e0";
    let of_64 = "debe9ff92275b8a138604889c18e5a4d6fdb70e5387e5765293dcba39c0c5732";
    assert_eq!(hex(&sm3(b"abc")), of_abc);
    assert_eq!(hex(&sm3(&b"abcd".repeat(16))), of_64);
}

#[test]
fn hmac_is_the_published_one() {
    let expected = "ca05e144ed05d1857840d1f318a4a8669e559fc8391f414485bfdf7bb408963a";
    let message = b"abcdbcdecdefdefgefghfghighijhijkijkljklmklmnlmnomnopnopq".repeat(2);
    assert_eq!(hex(&hmac_sm3(&bytes(1, 1, 32), &message)), expected);
}

#[test]
fn a_hash_in_parts_is_the_hash_of_the_whole() {
    let message = bytes(7, 3, 200);
    for cut in 0..=message.len() {
        let mut h = Sm3::default();
        h.update(&message[..cut]);
        assert_eq!(h.finish(), sm3(&message[..cut]));
        let mut other = h.clone();
        h.update(&message[cut..]);
        other.update(b"else");
        assert_eq!(h.finish(), sm3(&message));
        assert_ne!(other.finish(), sm3(&message));
    }
}

#[test]
fn sm4_is_the_published_one_both_ways() {
    let key = 0x0123_4567_89ab_cdef_fedc_ba98_7654_3210_u128.to_be_bytes();
    let cipher = sm4_encrypt_block(&key, &key).unwrap();
    assert_eq!(hex(&cipher), "681edf34d206965e86b3e94f536e4246");
    assert_eq!(sm4_decrypt_block(&key, &cipher), Ok(key));
    for n in [0, 15, 17] {
        let wrong = bytes(1, 0, n);
        for call in [sm4_encrypt_block, sm4_decrypt_block] {
            assert_eq!(call(&wrong, &key), Err(Error::WrongSize));
            assert_eq!(call(&key, &wrong), Err(Error::WrongSize));
        }
    }
}

#[test]
fn keys_are_those_of_openssl() {
    let part = |first, n| bytes(11, first, n);
    let (secret, client, server) = (part(1, 48), part(2, 32), part(3, 32));
    let master = master_secret(&secret, &client, &server).unwrap();
    let expected = "280cdd2d899046803bc5f798fc33429f763deba69c81a1ed\
                    89cb82ef6edfdc6eb60966b6db6cebe459912314a360840c";
    assert_eq!(hex(&master), expected);
    let mut block = [0; 40];
    assert_eq!(key_block(&secret, &client, &server, &mut block), Ok(()));
    let expected =
        "ff44917834178284360552bab9641bbeeeef16f33931b4c88aa33e43c05c6dc9b1de37e32a307994";
    assert_eq!(hex(&block), expected);
    let of = |role| hex(&finished(&secret, role, &client).unwrap());
    assert_eq!(of(Role::Client), "7929822e9533df60eeb21755");
    assert_eq!(of(Role::Server), "243cd68595d8676df45f0157");
}

#[test]
fn the_key_schedule_asks_for_its_sizes() {
    let (secret, random) = ([1; 48], [2; 32]);
    let wrong = Err(Error::WrongSize);
    for (s, c, r) in [(47, 32, 32), (48, 31, 32), (48, 32, 33)] {
        let (s, c, r) = (bytes(1, 0, s), bytes(1, 0, c), bytes(1, 0, r));
        assert_eq!(master_secret(&s, &c, &r).map(|_| ()), wrong);
        let mut block = [5; 128];
        assert_eq!(key_block(&s, &c, &r, &mut block), wrong);
        assert_eq!(block, [5; 128], "as found");
    }
    let mut block = vec![5; MAX_KEY_BLOCK + 1];
    assert_eq!(key_block(&secret, &random, &random, &mut block), wrong);
    assert!(block.iter().all(|&b| b == 5), "as found");
    block.pop();
    assert_eq!(key_block(&secret, &random, &random, &mut block), Ok(()));
    assert_eq!(key_block(&secret, &random, &random, &mut []), Ok(()));
    assert_eq!(
        finished(&secret[1..], Role::Client, &random),
        Err(Error::WrongSize)
    );
    assert_eq!(
        finished(&secret, Role::Server, &random[1..]),
        Err(Error::WrongSize)
    );
}

#[test]
fn a_key_block_has_two_halves() {
    let block = bytes(7, 3, 128);
    let halves = key_halves(&block).unwrap();
    let (client, server) = (halves.client(), halves.server());
    assert_eq!(
        (client.mac_key, client.enc_key),
        (&block[..32], &block[64..80])
    );
    assert_eq!(
        (server.mac_key, server.enc_key),
        (&block[32..64], &block[80..96])
    );
    for n in [0, 127, 129] {
        let block = bytes(7, 3, n);
        assert_eq!(key_halves(&block).err(), Some(Error::WrongSize));
    }
}

#[test]
fn a_sealed_record_is_that_of_the_rust() {
    let (block, text) = (bytes(7, 3, 128), bytes(7, 3, 15));
    let mut out = [0xee; 80];
    let halves = key_halves(&block).unwrap();
    let keys = halves.server();
    assert_eq!(seal_into(keys, HEADER, &IV, &text, &mut out), Ok(64));
    let expected = "ab982e2fda8351d9c4c681eb5aff85958defed823897dfa2\
                    88a019469f07949d43ff07fef82ea277118cb1f9fa69b6d1";
    assert_eq!(hex(&out[..64]), hex(&IV) + expected);
    assert_eq!(out[64..], [0xee; 16], "bytes behind stay as found");
}

#[test]
fn what_is_sealed_is_opened() {
    let block = bytes(7, 3, 128);
    let halves = key_halves(&block).unwrap();
    let keys = halves.client();
    let header = Header {
        version: 0x0203,
        ..HEADER
    };
    for n in (0..=100).chain([255, 256, 16383, MAX_PLAINTEXT]) {
        let text = bytes(13, 1, n);
        let record = seal(keys, header, &IV, &text).unwrap();
        assert_eq!(record.len(), sealed_len(n));
        assert_eq!(
            record,
            by_hand(keys, header, &text, &paddings(n).next().unwrap())
        );
        assert_eq!(open(keys, header, &record), Ok(text));
    }
}

#[test]
fn every_lawful_padding_is_opened_in_full() {
    let block = bytes(7, 3, 128);
    let halves = key_halves(&block).unwrap();
    let keys = halves.client();
    for n in [0, 1, 15, 16, 20, 300] {
        let text = bytes(13, 1, n);
        for padding in paddings(n) {
            let record = by_hand(keys, HEADER, &text, &padding);
            let mut out = vec![0xee; body_len(record.len()) + 5];
            let length = open_into(keys, HEADER, &record, &mut out).unwrap().length;
            assert_eq!(out[..length], text[..], "padding {}", padding.len());
            let zeros = body_len(record.len()) - n;
            assert_eq!(out[n..], [vec![0; zeros], vec![0xee; 5]].concat());
        }
    }
    // above the limit of sealing, a text that fits the greatest body is opened all the same
    let text = bytes(13, 1, 16399);
    assert_eq!(
        open(keys, HEADER, &by_hand(keys, HEADER, &text, &[0])),
        Ok(text)
    );
}

#[test]
fn the_count_is_given_by_the_length() {
    let block = bytes(7, 3, 128);
    let halves = key_halves(&block).unwrap();
    let keys = halves.client();
    for (body, count) in [(48, 8), (80, 11), (288, 27), (16432, 1288)] {
        let record = seal(keys, HEADER, &IV, &bytes(13, 1, body - 48)).unwrap();
        let opened = open_into(keys, HEADER, &record, &mut vec![0; body]).unwrap();
        assert_eq!((opened.length, opened.count), (body - 48, count));
    }
}

#[test]
fn wrong_padding_and_a_wrong_mac_are_refused_alike() {
    let block = bytes(7, 3, 128);
    let halves = key_halves(&block).unwrap();
    let keys = halves.client();
    let text = b"the last part counts";
    let mut padding = [27; 28];
    padding[3] = 26;
    let bad_padding = by_hand(keys, HEADER, text, &padding);
    let mut bad_mac = by_hand(keys, HEADER, text, &[27; 28]);
    bad_mac[32] ^= 1; // garbles the block of text and MAC there, and flips one bit of the next
    let cut = &seal(keys, HEADER, &IV, &[9; 64]).unwrap()[..80];
    for record in [&bad_padding[..], &bad_mac, cut] {
        let n = body_len(record.len());
        let mut out = vec![0xee; n + 7];
        assert_eq!(
            open_into(keys, HEADER, record, &mut out),
            Err(Error::BadRecord)
        );
        assert_eq!(out, [vec![0; n], vec![0xee; 7]].concat());
        assert_eq!(open(keys, HEADER, record), Err(Error::BadRecord));
    }
    let record = seal(keys, HEADER, &IV, text).unwrap();
    for header in [
        Header {
            number: 0,
            ..HEADER
        },
        Header {
            content_type: 22,
            ..HEADER
        },
        Header {
            version: 0x0102,
            ..HEADER
        },
    ] {
        assert_eq!(open(keys, header, &record), Err(Error::BadRecord));
    }
    assert_eq!(
        open(halves.server(), HEADER, &record),
        Err(Error::BadRecord)
    );
}

#[test]
fn sealing_refuses_by_number() {
    let block = bytes(7, 3, 128);
    let halves = key_halves(&block).unwrap();
    let keys = halves.client();
    let long = vec![1; MAX_PLAINTEXT + 1];
    let mut out = vec![0xee; MAX_RECORD];
    let mut sealing = |keys, iv: &[u8], text: &[u8], room: usize| {
        let answer = seal_into(keys, HEADER, iv, text, &mut out[..room]);
        assert!(out.iter().all(|&b| b == 0xee), "as found");
        answer.map_err(Error::number)
    };
    assert_eq!(sealing(keys, &IV, &long, MAX_RECORD), Err(1));
    assert_eq!(sealing(keys, &IV, &long, 0), Err(1));
    assert_eq!(sealing(keys, &IV, &long[1..], MAX_RECORD - 1), Err(2));
    assert_eq!(sealing(keys, &IV, b"", 63), Err(2));
    assert_eq!(sealing(keys, &IV[1..], &long, 0), Err(9));
    let (mac_key, enc_key) = (&block[..33], &block[..15]);
    assert_eq!(sealing(Keys { mac_key, ..keys }, &IV, &long, 0), Err(9));
    assert_eq!(sealing(Keys { enc_key, ..keys }, &IV, &long, 0), Err(9));
    assert_eq!(seal(keys, HEADER, &IV, &long), Err(Error::TooLong));
    assert_eq!(seal(keys, HEADER, &[], b""), Err(Error::WrongSize));
}

#[test]
fn opening_refuses_by_number() {
    let block = bytes(7, 3, 128);
    let halves = key_halves(&block).unwrap();
    let keys = halves.client();
    let bytes = vec![1; MAX_RECORD + 16];
    let mut out = vec![0xee; MAX_BODY + 16];
    let mut opening = |keys, record: usize, room: usize| {
        let answer = open_into(keys, HEADER, &bytes[..record], &mut out[..room]);
        assert!(out.iter().all(|&b| b == 0xee), "as found");
        answer.map_err(Error::number).err()
    };
    for (record, room, answer) in [
        (0, 0, 3),
        (63, MAX_BODY, 3),
        (65, 0, 4),
        (MAX_RECORD + 1, 0, 4),
        (MAX_RECORD + 16, 0, 5),
        (MAX_RECORD + 16, MAX_BODY + 16, 5),
        (64, 47, 2),
        (MAX_RECORD, MAX_BODY - 1, 2),
    ] {
        assert_eq!(opening(keys, record, room), Some(answer), "{record} {room}");
    }
    let (mac_key, enc_key) = (&block[..31], &block[..17]);
    assert_eq!(opening(Keys { mac_key, ..keys }, 0, 0), Some(9));
    assert_eq!(opening(Keys { enc_key, ..keys }, 0, 0), Some(9));
    for (record, error) in [
        (0, Error::Short),
        (65, Error::Ragged),
        (MAX_RECORD + 16, Error::TooBig),
    ] {
        assert_eq!(open(keys, HEADER, &bytes[..record]), Err(error));
    }
}
