//! The Rust behind a line protocol, so that it can be compared with any other program.
//!
//! One line in, one line out. Fields are parted by one space; bytes are lower-case hexadecimal and
//! `-` if empty; NUMBER, LEN, FILL and TOTAL are decimal; SIDE is c or s.
//!
//! ```text
//! seal SIDE KEYBLOCK128 NUMBER TYPE VERSION IV TEXT   -> ANSWER RECORD
//! open SIDE KEYBLOCK128 NUMBER TYPE VERSION RECORD    -> ANSWER TEXT COUNT
//! sm3 MESSAGE | sm3parts CHUNK..                      -> DIGEST
//! hmac KEY MESSAGE | hmacparts KEY CHUNK..            -> DIGEST
//! sm3state CHUNK..                                    -> WORDS BUFFER FILL TOTAL
//! enc KEY BLOCK | dec KEY BLOCK                       -> BLOCK
//! master PRE CR SR | keyblock MS CR SR LEN | finished MS SIDE HASH   -> BYTES
//! ```
//!
//! ANSWER is 0, or `none` where the Rust says `None`; the bytes are then `-`. COUNT is always `?`,
//! since the Rust has no steps. A command that it lacks (sealroom, openroom, steps, any other) is
//! answered `?`. A malformed line is answered `bad`; so is a field whose size the Rust's types do
//! not admit, and a LEN above 1,048,576, which the Rust would take.

use std::fmt;
use std::io::{self, BufRead, Write};

use gmcrypto_core::hmac::{HmacSm3, hmac_sm3};
use gmcrypto_core::sm3::{self, Sm3};
use gmcrypto_core::sm4::cipher::Sm4Cipher;
use gmcrypto_core::tlcp::key_schedule::{
    TlcpRole, derive_key_block, derive_master_secret, finished_verify_data,
};
use gmcrypto_core::tlcp::record::{RecordKeysCbc, deprotect_cbc, protect_cbc};
use rand_core::{TryCryptoRng, TryRngCore};

const MAX_LEN: usize = 1 << 20;

/// `None`: the line is malformed.
type Answer = Option<String>;

fn main() -> io::Result<()> {
    let mut input = io::BufReader::with_capacity(1 << 16, io::stdin());
    let mut output = io::BufWriter::new(io::stdout());
    let mut line = Vec::new();
    while input.read_until(b'\n', &mut line)? > 0 {
        if line.last() == Some(&b'\n') {
            line.pop();
        }
        writeln!(output, "{}", reply(&line))?;
        // Nothing more has come in: the asker may be waiting.
        if input.buffer().is_empty() {
            output.flush()?;
        }
        line.clear();
    }
    output.flush()
}

fn reply(line: &[u8]) -> String {
    let Ok(text) = std::str::from_utf8(line) else {
        return "bad".to_string();
    };
    let fields: Vec<&str> = text.split(' ').collect();
    let rest = &fields[1..];
    let answer = match fields[0] {
        "seal" => seal(rest),
        "open" => open(rest),
        "sm3" => sm3_whole(rest),
        "sm3parts" => sm3_parts(rest),
        "sm3state" => sm3_state(rest),
        "hmac" => hmac_whole(rest),
        "hmacparts" => hmac_parts(rest),
        "enc" => encipher(rest),
        "dec" => decipher(rest),
        "master" => master(rest),
        "keyblock" => key_block(rest),
        "finished" => finished(rest),
        "" => None,
        _ => Some("?".to_string()),
    };
    answer.unwrap_or_else(|| "bad".to_string())
}

// ---- fields

fn bytes(field: &str) -> Option<Vec<u8>> {
    if field == "-" {
        return Some(Vec::new());
    }
    if field.is_empty() || field.len() % 2 != 0 {
        return None;
    }
    field
        .as_bytes()
        .chunks_exact(2)
        .map(|pair| Some(digit(pair[0])? << 4 | digit(pair[1])?))
        .collect()
}

fn digit(c: u8) -> Option<u8> {
    match c {
        b'0'..=b'9' => Some(c - b'0'),
        b'a'..=b'f' => Some(c - b'a' + 10),
        _ => None,
    }
}

fn array<const N: usize>(field: &str) -> Option<[u8; N]> {
    bytes(field)?.try_into().ok()
}

fn number(field: &str) -> Option<u64> {
    // `parse` would take a sign, too.
    if !field.bytes().all(|c| c.is_ascii_digit()) {
        return None;
    }
    field.parse().ok()
}

fn side(field: &str) -> Option<TlcpRole> {
    match field {
        "c" => Some(TlcpRole::Client),
        "s" => Some(TlcpRole::Server),
        _ => None,
    }
}

fn hex(bytes: &[u8]) -> String {
    if bytes.is_empty() {
        return "-".to_string();
    }
    bytes.iter().map(|b| format!("{b:02x}")).collect()
}

// ---- records

/// Yields the given IV, in the place of a random one.
struct Given([u8; 16]);

impl TryRngCore for Given {
    type Error = fmt::Error;

    fn try_fill_bytes(&mut self, out: &mut [u8]) -> Result<(), fmt::Error> {
        if out.len() != self.0.len() {
            return Err(fmt::Error);
        }
        out.copy_from_slice(&self.0);
        Ok(())
    }
}

impl TryCryptoRng for Given {}

fn keys(side_field: &str, block: &str) -> Option<RecordKeysCbc> {
    Some(RecordKeysCbc::from_key_block(
        side(side_field)?,
        &array(block)?,
    ))
}

fn seal(fields: &[&str]) -> Answer {
    let &[side, block, seq, kind, version, iv, text] = fields else {
        return None;
    };
    let sealed = protect_cbc(
        &keys(side, block)?,
        number(seq)?,
        array::<1>(kind)?[0],
        array(version)?,
        &bytes(text)?,
        &mut Given(array(iv)?),
    );
    Some(match sealed {
        Some(record) => format!("0 {}", hex(&record)),
        None => "none -".to_string(),
    })
}

fn open(fields: &[&str]) -> Answer {
    let &[side, block, seq, kind, version, record] = fields else {
        return None;
    };
    let opened = deprotect_cbc(
        &keys(side, block)?,
        number(seq)?,
        array::<1>(kind)?[0],
        array(version)?,
        &bytes(record)?,
    );
    Some(match opened {
        Some(text) => format!("0 {} ?", hex(&text)),
        None => "none - ?".to_string(),
    })
}

// ---- hash and MAC

fn sm3_whole(fields: &[&str]) -> Answer {
    let &[message] = fields else {
        return None;
    };
    Some(hex(&sm3::hash(&bytes(message)?)))
}

fn absorb(chunks: &[&str]) -> Option<Sm3> {
    let mut hash = Sm3::new();
    for chunk in chunks {
        hash.update(&bytes(chunk)?);
    }
    Some(hash)
}

fn sm3_parts(chunks: &[&str]) -> Answer {
    Some(hex(&absorb(chunks)?.finalize()))
}

/// The fields of the state are private; its Debug form shows them all.
fn sm3_state(chunks: &[&str]) -> Answer {
    let shown = format!("{:?}", absorb(chunks)?);
    Some(state_fields(&shown).unwrap_or_else(|| "?".to_string()))
}

fn state_fields(shown: &str) -> Option<String> {
    let (_, inside) = shown.split_once('{')?;
    let numbers: Vec<u64> = inside
        .split(|c: char| !c.is_ascii_digit())
        .filter(|run| !run.is_empty())
        .map(|run| run.parse().ok())
        .collect::<Option<_>>()?;
    let words: Vec<u32> = narrow(numbers.get(..8)?)?;
    let buffer: Vec<u8> = narrow(numbers.get(8..72)?)?;
    let &[fill, total] = numbers.get(72..)? else {
        return None;
    };
    // Written back it must be what was read, or the fields are not those that we take them for.
    let again = format!(
        "Sm3 {{ state: {words:?}, buffer: {buffer:?}, buffer_len: {fill}, total_len: {total} }}"
    );
    if again != shown {
        return None;
    }
    let joined: String = words.iter().map(|w| format!("{w:08x}")).collect();
    Some(format!("{joined} {} {fill} {total}", hex(&buffer)))
}

fn narrow<T: TryFrom<u64>>(numbers: &[u64]) -> Option<Vec<T>> {
    numbers.iter().map(|&n| T::try_from(n).ok()).collect()
}

fn hmac_whole(fields: &[&str]) -> Answer {
    let &[key, message] = fields else {
        return None;
    };
    Some(hex(&hmac_sm3(&bytes(key)?, &bytes(message)?)))
}

fn hmac_parts(fields: &[&str]) -> Answer {
    let (key, chunks) = fields.split_first()?;
    let mut mac = HmacSm3::new(&bytes(key)?);
    for chunk in chunks {
        mac.update(&bytes(chunk)?);
    }
    Some(hex(&mac.finalize()))
}

// ---- cipher

fn cipher_and_block(fields: &[&str]) -> Option<(Sm4Cipher, [u8; 16])> {
    let &[key, block] = fields else {
        return None;
    };
    Some((Sm4Cipher::new(&array(key)?), array(block)?))
}

fn encipher(fields: &[&str]) -> Answer {
    let (cipher, mut block) = cipher_and_block(fields)?;
    cipher.encrypt_block(&mut block);
    Some(hex(&block))
}

fn decipher(fields: &[&str]) -> Answer {
    let (cipher, mut block) = cipher_and_block(fields)?;
    cipher.decrypt_block(&mut block);
    Some(hex(&block))
}

// ---- key schedule

fn master(fields: &[&str]) -> Answer {
    let &[pre, client, server] = fields else {
        return None;
    };
    let mut out = [0; 48];
    derive_master_secret(&array(pre)?, &array(client)?, &array(server)?, &mut out);
    Some(hex(&out))
}

fn key_block(fields: &[&str]) -> Answer {
    let &[secret, client, server, len] = fields else {
        return None;
    };
    let len = usize::try_from(number(len)?).ok()?;
    if len > MAX_LEN {
        return None;
    }
    let mut out = vec![0; len];
    derive_key_block(&array(secret)?, &array(client)?, &array(server)?, &mut out);
    Some(hex(&out))
}

fn finished(fields: &[&str]) -> Answer {
    let &[secret, role, hash] = fields else {
        return None;
    };
    let mut out = [0; 12];
    finished_verify_data(&array(secret)?, side(role)?, &array(hash)?, &mut out);
    Some(hex(&out))
}
