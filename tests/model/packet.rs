//! Data-lines, packets, addresses and headers.

use crate::bits::{all_turned, framing_passes, message};

/// What the two address messages say.
#[derive(Clone, Copy, PartialEq, Debug)]
pub enum Address {
    /// Both messages good.
    Whole { magazine: u8, row: u8 },
    /// The first message good, the second refused.
    First { magazine: u8, row_weight_1: u8 },
    /// The second message good (as sent, 0 to 15), the first refused.
    Second { message: u8 },
    /// Both refused.
    Unread,
}

/// The page digits, the time and the control bits of a row 0.
#[derive(Clone, PartialEq, Debug)]
pub struct Header {
    pub tens: u8,
    pub units: u8,
    pub hours_tens: u8,
    pub hours_units: u8,
    pub minutes_tens: u8,
    pub minutes_units: u8,
    /// C4 has weight 1024, C5 512, and so on down to C14 with weight 1.
    pub control: u16,
}

/// "Digits, time and control bits are 0."
pub fn zero_header() -> Header {
    Header { tens: 0, units: 0, hours_tens: 0, hours_units: 0, minutes_tens: 0, minutes_units: 0, control: 0 }
}

/// The weight of control bit Cn (n from 4 to 14), C4 first.
pub fn control_weight(n: u32) -> u16 {
    1 << (14 - n)
}

/// Is C4 set?
pub fn c4(header: &Header) -> bool {
    header.control & control_weight(4) != 0
}

/// Refusals of a data-line: 10 line not 45 bytes; 11 framing wrong in two bits or more.
pub fn data_line_refusal(line: &[u8]) -> u8 {
    if line.len() != 45 {
        10
    } else if !framing_passes(line[2]) {
        11
    } else {
        0
    }
}

/// Two bytes of clock run-in, the framing code, then 42 bytes: the packet, unturned.
pub fn packet_of_line(line: &[u8]) -> &[u8] {
    &line[3..45]
}

/// The first message: magazine with weights 1, 2, 4, where 0 means 8.
fn magazine_of(first: u8) -> u8 {
    if first % 8 == 0 {
        8
    } else {
        first % 8
    }
}

/// The first message: row weight 1 in its highest bit.
fn row_weight_1_of(first: u8) -> u8 {
    first / 8
}

/// Packet bytes 1 and 2, of an unturned packet.
pub fn address(packet: &[u8]) -> Address {
    let turned = all_turned(packet);
    match (message(turned[0]), message(turned[1])) {
        (Some(first), Some(second)) => {
            Address::Whole { magazine: magazine_of(first), row: row_weight_1_of(first) + 2 * second }
        }
        (Some(first), None) => Address::First { magazine: magazine_of(first), row_weight_1: row_weight_1_of(first) },
        (None, Some(second)) => Address::Second { message: second },
        (None, None) => Address::Unread,
    }
}

/// The eight messages after the address, or none where one of the eight is refused.
fn eight_messages(packet: &[u8]) -> Option<Vec<u8>> {
    let mut messages = Vec::new();
    for byte in &all_turned(packet)[2..10] {
        messages.push(message(*byte)?);
    }
    Some(messages)
}

/// Control bits of a message, lowest weight first: Cn from the message's bit of this weight.
fn control_bit(message: u8, weight: u8, n: u32) -> u16 {
    if message & weight != 0 {
        control_weight(n)
    } else {
        0
    }
}

/// C4 with minutes tens, C5 and C6 with hours tens, then C7 to C10 and C11 to C14.
fn control_bits(m: &[u8]) -> u16 {
    let mut control = control_bit(m[3], 8, 4) + control_bit(m[5], 4, 5) + control_bit(m[5], 8, 6);
    for k in 0..4 {
        control += control_bit(m[6], 1 << k, 7 + k);
        control += control_bit(m[7], 1 << k, 11 + k);
    }
    control
}

/// Page units, page tens, minutes units, minutes tens (3 bits), hours units, hours tens (2 bits).
pub fn header(packet: &[u8]) -> Option<Header> {
    let m = eight_messages(packet)?;
    Some(Header {
        units: m[0],
        tens: m[1],
        minutes_units: m[2],
        minutes_tens: m[3] % 8,
        hours_units: m[4],
        hours_tens: m[5] % 4,
        control: control_bits(&m),
    })
}

/// The last 40 bytes of a packet, turned: rows 1 to 24 carry 40 characters there.
pub fn forty(packet: &[u8]) -> Vec<u8> {
    all_turned(&packet[2..42])
}

/// The last 32 bytes of a packet, turned: the header's characters for columns 8 to 39.
pub fn thirty_two(packet: &[u8]) -> Vec<u8> {
    all_turned(&packet[10..42])
}
