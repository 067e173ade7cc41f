//! Packs made for the tests.

use reference::crc::crc;
use reference::numbers::{write_length, write_tag};
use reference::pack::KEY;

pub const LABEL_A: &str = "060E2B340401010D0404020600000000";
pub const LABEL_B: &str = "060E2B340401010D0404020700000000";

pub fn hex(text: &str) -> Vec<u8> {
    let digits: Vec<u8> = text.bytes().filter(|byte| *byte != b' ').collect();
    let pair = |pair: &[u8]| u8::from_str_radix(std::str::from_utf8(pair).unwrap(), 16).unwrap();
    digits.chunks(2).map(pair).collect()
}

/// The key followed by these bytes.
pub fn k(text: &str) -> Vec<u8> {
    [&KEY[..], &hex(text)].concat()
}

/// Tag, shortest length, value.
pub fn payload(tag: u32, value: &[u8]) -> Vec<u8> {
    let mut header = [0; 9];
    let mut size = write_tag(&mut header, tag);
    size += write_length(&mut header[size..], value.len() as u32);
    [&header[..size], value].concat()
}

/// A pack with this value, without a CRC.
pub fn pack(value: &[u8]) -> Vec<u8> {
    let mut length = [0; 5];
    let size = write_length(&mut length, value.len() as u32);
    [&KEY[..], &length[..size], value].concat()
}

/// A pack with this value and a right CRC after it.
pub fn pack_with_crc(value: &[u8]) -> Vec<u8> {
    let mut pack = pack(&[value, &[3, 4, 0, 0, 0, 0]].concat());
    let covered = pack.len() - 4;
    let right = crc(&pack[..covered]).to_be_bytes();
    pack[covered..].copy_from_slice(&right);
    pack
}

/// A Config value: pack offset and mappings.
pub fn config_value(offset: i16, mappings: &[(u32, &str)]) -> Vec<u8> {
    let mut value = offset.to_be_bytes().to_vec();
    for (tag, label) in mappings {
        let mut bytes = [0; 4];
        let size = write_tag(&mut bytes, *tag);
        value.extend(&bytes[..size]);
        value.extend(hex(label));
    }
    value
}

pub fn config(offset: i16, mappings: &[(u32, &str)]) -> Vec<u8> {
    payload(1, &config_value(offset, mappings))
}

pub fn sync(payloads: &[Vec<u8>]) -> Vec<u8> {
    sync_at(1, payloads)
}

/// A Sync of this sample_offset.
pub fn sync_at(offset: i16, payloads: &[Vec<u8>]) -> Vec<u8> {
    let head = [offset.to_be_bytes(), [0, 2]].concat();
    payload(2, &[head, payloads.concat()].concat())
}
