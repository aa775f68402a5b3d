//! Bits and bytes: turning, Hamming bytes, character bytes, the framing code.

/// The bytes in which messages 0 to 15 are sent.
pub const SENT: [u8; 16] = [
    0x15, 0x02, 0x49, 0x5E, 0x64, 0x73, 0x38, 0x2F, 0xD0, 0xC7, 0x8C, 0x9B, 0xA1, 0xB6, 0xFD, 0xEA,
];

/// The framing code 11100100, as it stands.
pub const FRAMING: u8 = 0xE4;

/// Bit b1 to b8 of a byte: weight 1 for b1 and 128 for b8.
pub fn b(byte: u8, n: u32) -> u8 {
    (byte >> (n - 1)) & 1
}

/// "Each byte is turned end for end": b1 changes places with b8, and so on.
pub fn turned(byte: u8) -> u8 {
    let mut out = 0;
    for n in 1..=8 {
        out |= b(byte, n) << (8 - n);
    }
    out
}

/// Every byte of a packet turned.
pub fn all_turned(bytes: &[u8]) -> Vec<u8> {
    bytes.iter().map(|byte| turned(*byte)).collect()
}

/// A count of ones among the bits named.
pub fn ones(byte: u8, places: &[u32]) -> u32 {
    let mut count = 0;
    for n in places {
        count += b(byte, *n) as u32;
    }
    count
}

/// "Tests, each wanting an odd count of ones."
fn odd(byte: u8, places: &[u32]) -> bool {
    ones(byte, places) % 2 == 1
}

/// "A over b1 b2 b6 b8; B over b2 b3 b4 b8; C over b2 b4 b5 b6; D over all."
const A: [u32; 4] = [1, 2, 6, 8];
const B: [u32; 4] = [2, 3, 4, 8];
const C: [u32; 4] = [2, 4, 5, 6];
const D: [u32; 8] = [1, 2, 3, 4, 5, 6, 7, 8];

/// Does test A hold?
pub fn test_a(byte: u8) -> bool {
    odd(byte, &A)
}

/// Does test B hold?
pub fn test_b(byte: u8) -> bool {
    odd(byte, &B)
}

/// Does test C hold?
pub fn test_c(byte: u8) -> bool {
    odd(byte, &C)
}

/// Does test D hold?
pub fn test_d(byte: u8) -> bool {
    odd(byte, &D)
}

/// Do all four tests hold?
pub fn exact(byte: u8) -> bool {
    test_a(byte) && test_b(byte) && test_c(byte) && test_d(byte)
}

/// From b1 up a byte holds P1 M1 P2 M2 P3 M3 P4 M4: the message is M1 to M4.
fn message_bits(byte: u8) -> u8 {
    b(byte, 2) + 2 * b(byte, 4) + 4 * b(byte, 6) + 8 * b(byte, 8)
}

/// What decoding a Hamming byte answers: "exact, corrected (with the position of the wrong bit, 1 to 8)
/// or refused".
#[derive(Clone, Copy, PartialEq, Debug)]
pub enum Decoded {
    Exact { message: u8 },
    Corrected { message: u8, position: u8 },
    Refused,
}

/// The position of the one wrong bit, where D fails. A wrong bit turns over every test that it stands
/// in, so it is the bit that stands in those of A, B and C that fail and in no other: b7 where none does.
fn wrong_bit(byte: u8) -> u8 {
    let tells = |n: &u32| {
        let (a, b, c) = (A.contains(n), B.contains(n), C.contains(n));
        (a, b, c) == (!test_a(byte), !test_b(byte), !test_c(byte))
    };
    let position = D.into_iter().find(tells);
    position.expect("each set of A, B and C has a bit of its own") as u8
}

/// Decode a Hamming byte.
pub fn decode(byte: u8) -> Decoded {
    if exact(byte) {
        Decoded::Exact { message: message_bits(byte) }
    } else if test_d(byte) {
        // "D holds and another fails: refused."
        Decoded::Refused
    } else {
        // "D fails: one wrong bit, corrected."
        let position = wrong_bit(byte);
        Decoded::Corrected { message: message_bits(byte ^ (1 << (position - 1))), position }
    }
}

/// The message of a Hamming byte, where it is not refused.
pub fn message(byte: u8) -> Option<u8> {
    match decode(byte) {
        Decoded::Exact { message } | Decoded::Corrected { message, .. } => Some(message),
        Decoded::Refused => None,
    }
}

/// "Character bytes need odd parity; the character is the low seven bits."
pub fn character(byte: u8) -> Option<u8> {
    if test_d(byte) {
        Some(byte & 0x7F)
    } else {
        None
    }
}

/// How many bits differ.
pub fn wrong_bits(one: u8, other: u8) -> u32 {
    ones(one ^ other, &[1, 2, 3, 4, 5, 6, 7, 8])
}

/// The framing code is "accepted with at most one wrong bit".
pub fn framing_passes(byte: u8) -> bool {
    wrong_bits(byte, FRAMING) <= 1
}

/// A character sent by the rules: b8 makes the count of ones odd.
pub fn character_byte(code: u8) -> u8 {
    if test_d(code & 0x7F) {
        code & 0x7F
    } else {
        code | 0x80
    }
}
