//! Records: sealing and opening.

use crate::{Error, MAX_BODY, MAX_PLAINTEXT, answered, body_len, ffi, sealed_len};

/// The keys of one direction, borrowed.
#[derive(Clone, Copy)]
pub struct Keys<'a> {
    /// [`MAC_KEY_LEN`](crate::MAC_KEY_LEN) bytes.
    pub mac_key: &'a [u8],
    /// [`ENC_KEY_LEN`](crate::ENC_KEY_LEN) bytes.
    pub enc_key: &'a [u8],
}

/// What the MAC covers beside the text and its length. Any values are taken.
#[derive(Clone, Copy, Debug, PartialEq, Eq)]
pub struct Header {
    /// The record's number in its direction, never used twice under the same keys.
    pub number: u64,
    pub content_type: u8,
    /// High byte first.
    pub version: u16,
}

/// What opening a record reports.
#[derive(Clone, Copy, Debug, PartialEq, Eq)]
pub struct Opened {
    /// Of the text.
    pub length: usize,
    /// The steps that were made; the record's length alone decides it.
    pub count: usize,
}

/// Seals a text into the front of `out` and returns the record's length, [`sealed_len`] of the
/// text's. Bytes behind the record stay as found. The IV has [`IV_LEN`](crate::IV_LEN) bytes, fresh and not to be
/// guessed.
///
/// # Errors
/// [`Error::WrongSize`] for a key or IV, [`Error::TooLong`], [`Error::NoRoom`], tested in this order;
/// `out` stays as found.
pub fn seal_into(
    keys: Keys<'_>,
    header: Header,
    iv: &[u8],
    text: &[u8],
    out: &mut [u8],
) -> Result<usize, Error> {
    let mut length = 0;
    let answer = unsafe {
        ffi::noustrel_seal(
            keys.mac_key.as_ptr(),
            keys.mac_key.len(),
            keys.enc_key.as_ptr(),
            keys.enc_key.len(),
            header.number,
            header.content_type,
            header.version,
            iv.as_ptr(),
            iv.len(),
            text.as_ptr(),
            text.len(),
            out.as_mut_ptr(),
            out.len(),
            &mut length,
        )
    };
    answered(answer).map(|()| length)
}

/// Seals a text: the record. As [`seal_into`], with room that suffices.
///
/// # Errors
/// [`Error::WrongSize`] for a key or IV, [`Error::TooLong`].
pub fn seal(keys: Keys<'_>, header: Header, iv: &[u8], text: &[u8]) -> Result<Vec<u8>, Error> {
    // a text above the limit is refused without any room
    let room = if text.len() <= MAX_PLAINTEXT {
        sealed_len(text.len())
    } else {
        0
    };
    let mut record = vec![0; room];
    let length = seal_into(keys, header, iv, text, &mut record)?;
    record.truncate(length);
    Ok(record)
}

/// Opens a record into `out`, which has room for the body, [`body_len`] of the
/// record's length: the text, then zeros up to the body's length; the rest stays as found. Padding of
/// every lawful length is taken, and the text may have up to 16,399 bytes.
///
/// # Errors
/// [`Error::WrongSize`] for a key, [`Error::Short`], [`Error::Ragged`], [`Error::TooBig`],
/// [`Error::NoRoom`], tested in this order; `out` stays as found. Then [`Error::BadRecord`]: the
/// body's length of bytes in `out` is zero, the rest as found.
pub fn open_into(
    keys: Keys<'_>,
    header: Header,
    record: &[u8],
    out: &mut [u8],
) -> Result<Opened, Error> {
    let (mut length, mut count) = (0, 0);
    let answer = unsafe {
        ffi::noustrel_open(
            keys.mac_key.as_ptr(),
            keys.mac_key.len(),
            keys.enc_key.as_ptr(),
            keys.enc_key.len(),
            header.number,
            header.content_type,
            header.version,
            record.as_ptr(),
            record.len(),
            out.as_mut_ptr(),
            out.len(),
            &mut length,
            &mut count,
        )
    };
    answered(answer).map(|()| Opened { length, count })
}

/// Opens a record: the text. As [`open_into`], with room that suffices.
///
/// # Errors
/// [`Error::WrongSize`] for a key, [`Error::Short`], [`Error::Ragged`], [`Error::TooBig`], [`Error::BadRecord`].
pub fn open(keys: Keys<'_>, header: Header, record: &[u8]) -> Result<Vec<u8>, Error> {
    // a record that is too long is refused without any room
    let room = body_len(record.len());
    let mut text = vec![0; if room <= MAX_BODY { room } else { 0 }];
    let opened = open_into(keys, header, record, &mut text)?;
    text.truncate(opened.length);
    Ok(text)
}
