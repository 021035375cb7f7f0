//! Bytes damaged at random.

use crate::random::Random;

/// The bytes that rules and formulas are made of.
const SYMBOLS: &[u8] = b"UROPBJSCEA()[]{}|@=!<>^&+,-*:v0123456789userolimpnbjctad";

/// Pieces of rules and formulas.
const PIECES: [&str; 30] = [
    "OE(",
    "AO(",
    "roles(",
    "roles*(",
    "user(",
    "sessions(",
    "permissions(",
    "permissions*(",
    "object(",
    "operations(",
    "done(",
    "U",
    "R",
    "OP",
    "OBJ",
    "P",
    "S",
    "CR",
    "CP",
    "CU",
    "v1",
    "v2",
    "v9",
    "=>",
    "<=",
    "!=",
    "{}",
    "-{v1})",
    "[v1@U]",
    "^",
];

/// Changes text a little: a byte or a piece put in, taken out, exchanged, doubled or moved.
pub fn text(random: &mut Random, text: &mut Vec<u8>) {
    let at = random.below(text.len() + 1);
    let piece = random.pick(&PIECES).as_bytes();
    match random.below(9) {
        0 => text.truncate(at),
        1 => text.insert(at, *random.pick(SYMBOLS)),
        2 => text.insert(at, random.byte()),
        3 => drop(text.splice(at..at, piece.iter().copied())),
        4 => text.extend_from_slice(piece),
        _ if at == text.len() => text.push(*random.pick(SYMBOLS)),
        5 => drop(text.remove(at)),
        6 => text[at] = *random.pick(SYMBOLS),
        7 => {
            let end = random.between(at + 1, text.len());
            let part = text[at..end].to_vec();
            let to = random.below(text.len() + 1);
            text.splice(to..to, part);
        }
        _ => {
            let other = random.below(text.len());
            text.swap(at, other);
        }
    }
}

/// Changes, cuts or extends bytes that are no text.
pub fn bytes(random: &mut Random, bytes: &mut Vec<u8>) {
    let at = random.below(bytes.len() + 1);
    match random.below(6) {
        0 => bytes.truncate(at),
        1 => bytes.push(random.byte()),
        2 => bytes.insert(at, random.byte()),
        _ if at == bytes.len() => bytes.push(0),
        3 => bytes[at] = *random.pick(&[0, 1, 2, 7, 8, 9, 63, 64, 65, 255]),
        4 => bytes[at] ^= 1 << random.below(8),
        _ => drop(bytes.remove(at)),
    }
}
