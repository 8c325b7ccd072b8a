//! Damage to well-formed bytes: flipped bits, cut and lengthened ends, changed, lost, doubled and
//! exchanged fields.

use super::random::Random;
use crate::reading::pack::{self, Field};
use crate::reading::sheet::Sheet;

/// A damaged copy of a packed sheet; `other` lends fields.
pub fn sheet(random: &mut Random, sheet: &Sheet, other: &Sheet) -> Vec<u8> {
    if random.once_in(2) {
        let mut bytes = pack::sheet(sheet);
        bytes_of(random, &mut bytes);
        return bytes;
    }
    let mut fields = pack::sheet_fields(sheet);
    for _ in 0..random.between(1, 2) {
        field(random, &mut fields, &pack::sheet_fields(other));
    }
    pack::bits(&fields).into_bytes()
}

fn field(random: &mut Random, fields: &mut Vec<Field>, other: &[Field]) {
    if fields.is_empty() {
        return;
    }
    let at = random.below(fields.len());
    let width = fields[at].width;
    let most = if width == 64 { u64::MAX } else { (1 << width) - 1 };
    match random.below(8) {
        0..=2 => fields[at].value = random.bits() & most,
        3 => fields[at].value = most,
        4 => fields[at].value = fields[at].value.wrapping_add(1) & most,
        5 => {
            fields.remove(at);
        }
        6 => fields.insert(at, fields[at]),
        _ => {
            let from = random.below(other.len());
            let keep = at.min(fields.len());
            fields.truncate(keep);
            fields.extend_from_slice(&other[from..]);
        }
    }
}

/// Damages bytes of any meaning in place.
pub fn bytes_of(random: &mut Random, bytes: &mut Vec<u8>) {
    match random.below(5) {
        0 | 1 => {
            for _ in 0..random.between(1, 3) {
                if !bytes.is_empty() {
                    let at = random.below(bytes.len() * 8);
                    bytes[at / 8] ^= 0x80 >> (at % 8);
                }
            }
        }
        2 => bytes.truncate(random.below(bytes.len() + 1)),
        3 => {
            for _ in 0..random.between(1, 9) {
                let byte = if random.once_in(2) { 0 } else { random.bits() as u8 };
                bytes.push(byte);
            }
        }
        _ => {
            if !bytes.is_empty() {
                let at = random.below(bytes.len());
                bytes.remove(at);
            }
        }
    }
}
