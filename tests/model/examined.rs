//! Mended bytes, by request 3 of document 02: which Hamming bytes of a packet are examined, and how many
//! of them were corrected.

use crate::bits::{all_turned, decode, Decoded};
use crate::packet::{address, Address};

/// The examined bytes of a packet, turned: "the two address bytes, and the eight control bytes where the
/// line is row 0 of our magazine".
///
/// The address bytes are examined always, one refused or not. The control bytes are where both address
/// messages are good and read as row 0 of ours, and then all eight: also those past a refused one.
pub fn examined(ours: u8, packet: &[u8]) -> Vec<u8> {
    let our_row_0 = address(packet) == Address::Whole { magazine: ours, row: 0 };
    all_turned(&packet[..if our_row_0 { 10 } else { 2 }])
}

/// "How many of its examined Hamming bytes were corrected."
pub fn mended(ours: u8, packet: &[u8]) -> u8 {
    let corrected = |byte: &&u8| matches!(decode(**byte), Decoded::Corrected { .. });
    examined(ours, packet).iter().filter(corrected).count() as u8
}
