//! Document 01, "SDAP advert, 122 bytes".
//!
//! ""DA" 0; version 04h 2; category 0Bh or 0Ch 3; "SONY" 4; product (12) 8; serial (4) 20; power
//! (2) 24; location (24) 26; connected IP 50; four accepted IPs 54; error (2) 70; region (24) 72;
//! name (24) 96; group 120; unit 121. ... Numbers high byte first."

use crate::answer::Answer;

/// The length of an advert.
pub const LENGTH: usize = 122;

/// The fields of an advert. The default is all zero, as the reader gives them "when refused".
#[derive(Clone, Debug, Default, PartialEq, Eq)]
pub struct Fields {
    pub category: u8,
    pub product: [u8; 12],
    pub serial: u32,
    pub power: u16,
    pub location: [u8; 24],
    pub connected: u32,
    pub accepted: [u32; 4],
    pub error: u16,
    pub region: [u8; 24],
    pub name: [u8; 24],
    pub group: u8,
    pub unit: u8,
}

/// What the writer is given: the fields, its texts being areas of any length.
#[derive(Clone, Debug, PartialEq, Eq)]
pub struct Wanted<'a> {
    pub category: u8,
    pub product: &'a [u8],
    pub serial: u32,
    pub power: u16,
    pub location: &'a [u8],
    pub connected: u32,
    pub accepted: [u32; 4],
    pub error: u16,
    pub region: &'a [u8],
    pub name: &'a [u8],
    pub group: u8,
    pub unit: u8,
}

/// The advert reader: the answer, and the fields, "all zero when refused".
pub fn read(bytes: &[u8]) -> (Answer, Fields) {
    match read_fields(bytes) {
        Ok(fields) => (Answer::CarriedOut, fields),
        Err(answer) => (answer, Fields::default()),
    }
}

fn read_fields(bytes: &[u8]) -> Result<Fields, Answer> {
    // "Wrong length: 3."
    if bytes.len() != LENGTH {
        return Err(Answer::WrongLength);
    }
    // "Wrong fixed bytes or category: 4."
    if bytes[..3] != *b"DA\x04" || bytes[4..8] != *b"SONY" {
        return Err(Answer::NotForUs);
    }
    let fields = Fields {
        category: bytes[3],
        product: text(&bytes[8..20]),
        serial: number(&bytes[20..24]),
        power: short(&bytes[24..26]),
        location: text(&bytes[26..50]),
        connected: number(&bytes[50..54]),
        accepted: [
            number(&bytes[54..58]),
            number(&bytes[58..62]),
            number(&bytes[62..66]),
            number(&bytes[66..70]),
        ],
        error: short(&bytes[70..72]),
        region: text(&bytes[72..96]),
        name: text(&bytes[96..120]),
        group: bytes[120],
        unit: bytes[121],
    };
    check(&fields)?;
    Ok(fields)
}

/// The advert writer.
///
/// "The writer gives 3 for a text area not of its 12 or 24 bytes, 4 for a category and 5 for the
/// rest by the same rules, area untouched. On 0 it fills the first 122 bytes and those after keep
/// what they held; it returns the number alone."
pub fn write(area: &mut [u8], wanted: &Wanted<'_>) -> Answer {
    match advert_of(area.len(), wanted) {
        Ok(advert) => {
            area[..LENGTH].copy_from_slice(&advert);
            Answer::CarriedOut
        }
        Err(answer) => answer,
    }
}

fn advert_of(area: usize, wanted: &Wanted<'_>) -> Result<Vec<u8>, Answer> {
    // 1: "reply area under 512 bytes (advert writer: under 122)".
    if area < LENGTH {
        return Err(Answer::AreaTooSmall);
    }
    let texts = (
        wanted.product.try_into(),
        wanted.location.try_into(),
        wanted.region.try_into(),
        wanted.name.try_into(),
    );
    let (Ok(product), Ok(location), Ok(region), Ok(name)) = texts else {
        return Err(Answer::WrongLength);
    };
    let fields = Fields {
        category: wanted.category,
        product,
        serial: wanted.serial,
        power: wanted.power,
        location,
        connected: wanted.connected,
        accepted: wanted.accepted,
        error: wanted.error,
        region,
        name,
        group: wanted.group,
        unit: wanted.unit,
    };
    check(&fields)?;
    Ok(laid_out(&fields))
}

/// The rules that reader and writer share, in the order of their numbers: the category is 4, then
/// "Power or error not 0 or 1, or a nonzero byte after a 00h in a text: 5." Group and unit are any
/// byte, and a text of zeros is good (docs/DECISIONS.md).
fn check(fields: &Fields) -> Result<(), Answer> {
    if !matches!(fields.category, 0x0B | 0x0C) {
        return Err(Answer::NotForUs);
    }
    let flags_are_good = fields.power <= 1 && fields.error <= 1;
    let texts_are_good = text_is_good(&fields.product)
        && text_is_good(&fields.location)
        && text_is_good(&fields.region)
        && text_is_good(&fields.name);
    if flags_are_good && texts_are_good {
        Ok(())
    } else {
        Err(Answer::EnvelopeWrong)
    }
}

/// Behind the first 00h there are only more of them.
fn text_is_good(text: &[u8]) -> bool {
    text.iter()
        .skip_while(|byte| **byte != 0)
        .all(|byte| *byte == 0)
}

fn laid_out(fields: &Fields) -> Vec<u8> {
    let mut bytes = Vec::with_capacity(LENGTH);
    bytes.extend_from_slice(b"DA\x04");
    bytes.push(fields.category);
    bytes.extend_from_slice(b"SONY");
    bytes.extend_from_slice(&fields.product);
    bytes.extend_from_slice(&fields.serial.to_be_bytes());
    bytes.extend_from_slice(&fields.power.to_be_bytes());
    bytes.extend_from_slice(&fields.location);
    bytes.extend_from_slice(&fields.connected.to_be_bytes());
    for address in fields.accepted {
        bytes.extend_from_slice(&address.to_be_bytes());
    }
    bytes.extend_from_slice(&fields.error.to_be_bytes());
    bytes.extend_from_slice(&fields.region);
    bytes.extend_from_slice(&fields.name);
    bytes.push(fields.group);
    bytes.push(fields.unit);
    bytes
}

fn text<const N: usize>(bytes: &[u8]) -> [u8; N] {
    let mut text = [0; N];
    text.copy_from_slice(bytes);
    text
}

fn number(bytes: &[u8]) -> u32 {
    u32::from_be_bytes(text(bytes))
}

fn short(bytes: &[u8]) -> u16 {
    u16::from_be_bytes(text(bytes))
}

/// What the program `advert` prints for its input: "four lines, or the one line `refused N`: the
/// product's bytes before its first 00h, then serial, group and unit in decimal."
pub fn printed(input: &[u8]) -> Vec<u8> {
    let (answer, fields) = read(input);
    if answer != Answer::CarriedOut {
        return format!("refused {}\n", answer.number()).into_bytes();
    }
    let product = fields.product.iter().take_while(|byte| **byte != 0);
    let mut lines = b"product ".to_vec();
    lines.extend(product);
    lines.extend_from_slice(
        format!(
            "\nserial {}\ngroup {}\nunit {}\n",
            fields.serial, fields.group, fields.unit
        )
        .as_bytes(),
    );
    lines
}
