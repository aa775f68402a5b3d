//! DVB data fields: the walk over units, the search for teletext, the unit lister's walk.

use crate::bits::framing_passes;

/// One unit of a field.
#[derive(Clone, Copy, PartialEq, Debug)]
pub struct Unit {
    pub place: usize,
    pub id: u8,
    pub length: usize,
}

/// What the search hands back.
#[derive(PartialEq, Debug)]
pub enum Found {
    Packet { place: usize, parity: u8, offset: u8, after: usize },
    NoMore,
    Refused { number: u8, place: Option<usize> },
}

/// Identifier 10 to 1F.
fn identifier_10_to_1f(identifier: u8) -> bool {
    (0x10..=0x1F).contains(&identifier)
}

/// Identifier 99 to 9B.
fn identifier_99_to_9b(identifier: u8) -> bool {
    (0x99..=0x9B).contains(&identifier)
}

/// 14: field empty, or identifier not 10 to 1F or 99 to 9B.
pub fn cause_14(field: &[u8]) -> bool {
    field.is_empty() || !(identifier_10_to_1f(field[0]) || identifier_99_to_9b(field[0]))
}

/// 15: unit runs past the field, or its length byte is missing.
fn cause_15(field: &[u8], place: usize) -> bool {
    if place + 1 >= field.len() {
        return true;
    }
    place + 2 + field[place + 1] as usize > field.len()
}

/// 16: identifier 10 to 1F and any length not 44; 99 to 9B and id 02, 03 or C0 with length not 44.
fn cause_16(field: &[u8], place: usize) -> bool {
    let id = field[place];
    let length = field[place + 1];
    let id_wants_44 = id == 0x02 || id == 0x03 || id == 0xC0;
    (identifier_10_to_1f(field[0]) && length != 44)
        || (identifier_99_to_9b(field[0]) && id_wants_44 && length != 44)
}

/// The unit at a place: "at each unit 15, 16".
pub fn unit_at(field: &[u8], place: usize) -> Result<Unit, u8> {
    if cause_15(field, place) {
        Err(15)
    } else if cause_16(field, place) {
        Err(16)
    } else {
        Ok(Unit { place, id: field[place], length: field[place + 1] as usize })
    }
}

/// The unit at a place asked, if it is not the end: "fields 14, 17, then at each unit 15, 16", the last two with the place.
pub fn unit_from(field: &[u8], from: usize) -> Result<Option<Unit>, (u8, Option<usize>)> {
    if cause_14(field) {
        return Err((14, None));
    }
    if from > field.len() {
        return Err((17, None));
    }
    // "0 means the first unit"
    let place = if from == 0 { 1 } else { from };
    if place == field.len() {
        return Ok(None);
    }
    unit_at(field, place).map(Some).map_err(|number| (number, Some(place)))
}

/// "Teletext ids are 02 and 03."
fn teletext(unit: &Unit) -> bool {
    unit.id == 0x02 || unit.id == 0x03
}

/// After two reserved bits, the field parity bit.
fn parity_of(field: &[u8], unit: &Unit) -> u8 {
    (field[unit.place + 2] >> 5) & 1
}

/// The 5-bit line offset.
fn offset_of(field: &[u8], unit: &Unit) -> u8 {
    field[unit.place + 2] & 0x1F
}

/// Passed over: "teletext units whose offset is not 0 or 7 to 22 or whose framing fails".
fn offset_and_framing_good(field: &[u8], unit: &Unit) -> bool {
    let offset = offset_of(field, unit);
    (offset == 0 || (7..=22).contains(&offset)) && framing_passes(field[unit.place + 3])
}

/// The packet's place, the field parity, the offset and the place after.
fn found(field: &[u8], unit: &Unit) -> Found {
    Found::Packet {
        place: unit.place + 4,
        parity: parity_of(field, unit),
        offset: offset_of(field, unit),
        after: unit.place + 2 + unit.length,
    }
}

/// The search from a place: "fields 14, 17, then at each unit 15, 16".
pub fn search(field: &[u8], from: usize) -> Found {
    if cause_14(field) {
        return Found::Refused { number: 14, place: None };
    }
    if from > field.len() {
        return Found::Refused { number: 17, place: None };
    }
    // "0 means the first unit"
    let mut place = if from == 0 { 1 } else { from };
    while place < field.len() {
        match unit_at(field, place) {
            Err(number) => return Found::Refused { number, place: Some(place) },
            Ok(unit) => {
                if teletext(&unit) && offset_and_framing_good(field, &unit) {
                    return found(field, &unit);
                }
                place = place + 2 + unit.length;
            }
        }
    }
    Found::NoMore
}

/// The unit lister's walk: every unit of any id, then the number and place of a refusal, if any.
pub fn list(field: &[u8]) -> (Vec<Unit>, u8, Option<usize>) {
    if cause_14(field) {
        return (Vec::new(), 14, None);
    }
    let mut units = Vec::new();
    let mut place = 1;
    while place < field.len() {
        match unit_at(field, place) {
            Err(number) => return (units, number, Some(place)),
            Ok(unit) => {
                units.push(unit);
                place = place + 2 + unit.length;
            }
        }
    }
    (units, 0, None)
}
