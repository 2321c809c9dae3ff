//! Document 01, "RS-232C (002, 004)".
//!
//! "Bytes: 02h, byte count, destination, source, command block, checksum."

use crate::answer::{Answer, Part, Reply};
use crate::checksum;
use crate::panel::{Connector, Preset, Switch, WSettings};

const START: u8 = 0x02;
const OUR_ADDRESS: u8 = 0x01;
const ACK: u8 = 0x04;
const NAK: u8 = 0x05;

/// A message to the RS-232C port of a W panel.
pub fn receive(settings: &mut WSettings, bytes: &[u8]) -> Reply {
    // "Under 6 bytes: 3."
    if bytes.len() < 6 {
        return Reply::silent(Answer::WrongLength);
    }
    let (destination, source) = (bytes[2], bytes[3]);
    // "First byte not 02h, destination not 01h, or source outside 41h to 7Fh: 4."
    if bytes[0] != START || destination != OUR_ADDRESS || !(0x41..=0x7F).contains(&source) {
        return Reply::silent(Answer::NotForUs);
    }
    // Document 02, §8: its numbers stand "at the old place of 5", and "The bytes sent to the console
    // stay as they were".
    if let Some(part) = wrong_part(bytes) {
        return Reply::new(Answer::WrongPart(part), frame(source, &[NAK]));
    }
    let block = &bytes[4..bytes.len() - 1];
    match carry_out(settings, block[0], &block[1..]) {
        Some(answer_block) => Reply::new(Answer::CarriedOut, frame(source, &answer_block)),
        None => Reply::new(Answer::NotUnderstood, frame(source, &[NAK])),
    }
}

/// "Byte count not equal to length less 3: 5. The sum from the byte count to the checksum, both
/// included, is not 0 modulo 256: 5." Document 02, §8 tells the two apart, "in that order".
fn wrong_part(bytes: &[u8]) -> Option<Part> {
    if usize::from(bytes[1]) != bytes.len() - 3 {
        Some(Part::ByteCount)
    } else if !checksum::sums_to_zero(&bytes[1..]) {
        Some(Part::Checksum)
    } else {
        None
    }
}

/// "The reply goes to the request's source, from 01h."
fn frame(source: u8, block: &[u8]) -> Vec<u8> {
    let mut bytes = vec![START, 0, source, OUR_ADDRESS];
    bytes.extend_from_slice(block);
    // The byte count says how many bytes stand between it and the checksum.
    bytes[1] = (bytes.len() - 2) as u8;
    bytes.push(checksum::closing_byte(&bytes[1..]));
    bytes
}

/// Carries a command out and gives the block of its reply; nothing where it is not understood:
/// "any other code or number of data bytes: 6".
fn carry_out(settings: &mut WSettings, code: u8, data: &[u8]) -> Option<Vec<u8>> {
    match (code, data) {
        (0x21, [marks, values]) => input_config(settings, *marks, *values),
        (0x22, [value]) => input_select(settings, *value),
        (0x40, [mask, values @ ..]) => white_balance_data(settings, *mask, values),
        (0x61, [which]) => white_balance_sense(settings, *which),
        (0x6E, []) => Some(vec![0x7E, u8::from(settings.is_on(Switch::Remote))]),
        _ => None,
    }
}

/// "21h, two bytes. First: bit 0 connector, bit 1 preset white balance (house). Second: connector
/// in bits 0 to 3, preset in bits 4 to 6 (house). A part not marked is neither checked nor
/// applied. ... A marked code not listed: 6."
///
/// Both marked parts are checked before either is applied (docs/DECISIONS.md).
fn input_config(settings: &mut WSettings, marks: u8, values: u8) -> Option<Vec<u8>> {
    let connector = if marks & 0x01 != 0 {
        Some(Connector::from_code(values & 0x0F)?)
    } else {
        None
    };
    let preset = if marks & 0x02 != 0 {
        Some(Preset::from_code(values >> 4 & 0x07)?)
    } else {
        None
    };
    if let Some(connector) = connector {
        // "A connector that is OFF is ignored, the preset still applied, ACK sent."
        if settings.connector_is_on(connector) {
            settings.input = connector;
        }
    }
    if let Some(preset) = preset {
        settings.preset = preset;
    }
    Some(vec![ACK])
}

/// "22h, one byte. Connector in bits 0 to 3, act in bits 4 and 5 (house): 1 OFF, 2 ON, 3 ALL
/// RESET, which turns all ten ON with no look at the connector (house). Act 0, or an unlisted
/// connector with act 1 or 2: 6. The connector in use may be turned OFF and stays in use."
fn input_select(settings: &mut WSettings, value: u8) -> Option<Vec<u8>> {
    let connector = Connector::from_code(value & 0x0F);
    match value >> 4 & 0x03 {
        1 => {
            let connector = connector?;
            if !is_only_one_on(settings, connector) {
                settings.turn_connector(connector, false);
            }
        }
        2 => settings.turn_connector(connector?, true),
        3 => settings.turn_all_connectors_on(),
        _ => return None,
    }
    Some(vec![ACK])
}

/// 002 and 004, Input Select (22H): "If only one input setting is set to ON, the value is ignored
/// and an ACK is issued." Document 01 is silent there, so the manuals decide (docs/DECISIONS.md).
fn is_only_one_on(settings: &WSettings, connector: Connector) -> bool {
    Connector::ALL
        .into_iter()
        .all(|other| settings.connector_is_on(other) == (other == connector))
}

/// "40h. Mask bits 0 to 5 (house): R, G, B gain, R, G, B bias. Data bytes: 1 + twice the number of
/// ones in bits 0 to 5. Values follow from the lowest marked bit up, two bytes each, low first."
///
/// The number of bytes is checked before any value is applied.
fn white_balance_data(settings: &mut WSettings, mask: u8, values: &[u8]) -> Option<Vec<u8>> {
    let marked = (mask & 0x3F).count_ones() as usize;
    if values.len() != 2 * marked {
        return None;
    }
    let mut values = values
        .chunks_exact(2)
        .map(|pair| u16::from_le_bytes([pair[0], pair[1]]));
    for (bit, gain) in settings.gain.iter_mut().enumerate() {
        if mask >> bit & 1 != 0 {
            *gain = gain_of(values.next()?);
        }
    }
    for (bit, bias) in settings.bias.iter_mut().enumerate() {
        if mask >> (bit + 3) & 1 != 0 {
            *bias = bias_of(values.next()?);
        }
    }
    Some(vec![ACK])
}

/// "A gain is taken modulo 4096."
fn gain_of(value: u16) -> u16 {
    value % 4096
}

/// "A bias is taken modulo 2048, and 1024 or more has 2048 subtracted: -1024 to 1023."
fn bias_of(value: u16) -> i16 {
    let bias = (value % 2048) as i16;
    if bias >= 1024 {
        bias - 2048
    } else {
        bias
    }
}

/// "61h, one byte: 1 gains, 2 biases, else 6 (house). Reply 71h, that byte, then R, G, B, low byte
/// first; unused upper bits are 0."
fn white_balance_sense(settings: &WSettings, which: u8) -> Option<Vec<u8>> {
    let values = match which {
        1 => settings.gain,
        2 => settings.bias.map(|bias| bias.rem_euclid(2048) as u16),
        _ => return None,
    };
    let mut block = vec![0x71, which];
    for value in values {
        block.extend_from_slice(&value.to_le_bytes());
    }
    Some(block)
}
