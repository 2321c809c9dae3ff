//! What the tests share: messages made by hand, and a box to send them to.
#![allow(dead_code)]

use second::config::{configure, DisplayBox};
use second::message::{receive, Outcome, Way};
use second::panel::{KSettings, Settings, WSettings};

/// The number of an answer that has place 0, and the reply's bytes.
pub type Told = (u8, Vec<u8>);

/// The number of an answer, its place (document 02, §8), and the reply's bytes.
pub type ToldAt = (u8, usize, Vec<u8>);

/// A good box of these panels: family, group, unit.
pub fn new_box(panels: &[(u8, u8, u8)]) -> DisplayBox {
    let description: Vec<u8> = panels.iter().flat_map(|p| [p.0, p.1, p.2]).collect();
    let (answer, new_box) = configure(&description);
    assert_eq!(answer.number(), 0);
    new_box
}

/// Panel 1 is W 1/1, panel 2 is W 1/2, panel 3 is W 2/1, panel 4 is K.
pub fn usual_box() -> DisplayBox {
    new_box(&[(b'W', 1, 1), (b'W', 1, 2), (b'W', 2, 1), (b'K', 0, 0)])
}

/// Bytes written as `02 03 FF`.
pub fn hex(text: &str) -> Vec<u8> {
    text.split_whitespace()
        .map(|byte| u8::from_str_radix(byte, 16).unwrap())
        .collect()
}

pub fn w(held: &mut DisplayBox, link: usize) -> &mut WSettings {
    match &mut held.panels[link - 1].settings {
        Settings::W(settings) => settings,
        Settings::K(_) => panic!("panel {link} is of family K"),
    }
}

pub fn k(held: &mut DisplayBox, link: usize) -> &mut KSettings {
    match &mut held.panels[link - 1].settings {
        Settings::K(settings) => settings,
        Settings::W(_) => panic!("panel {link} is of family W"),
    }
}

/// Checks that the bytes behind the reply kept what they held, and gives the reply.
fn told_at(outcome: Outcome, area: &[u8]) -> ToldAt {
    let (reply, behind) = area.split_at(outcome.written);
    assert!(behind.iter().all(|byte| *byte == 0x5A));
    (outcome.answer.number(), outcome.place, reply.to_vec())
}

/// Checks too that the answer has place 0, as all have that name no part of the envelope.
fn told(outcome: Outcome, area: &[u8]) -> Told {
    let (number, place, reply) = told_at(outcome, area);
    assert_eq!(place, 0, "of the answer {number}");
    (number, reply)
}

pub fn rs232_in(held: &mut DisplayBox, link: u32, size: usize, bytes: &[u8]) -> Told {
    let mut area = vec![0x5A; size];
    let way = Way::Rs232c {
        link,
        area: &mut area,
    };
    told(receive(held, way, bytes), &area)
}

pub fn kjw_in(held: &mut DisplayBox, link: u32, size: usize, bytes: &[u8]) -> Told {
    let mut area = vec![0x5A; size];
    let way = Way::Kjw {
        link,
        area: &mut area,
    };
    told(receive(held, way, bytes), &area)
}

pub fn tcp_in(held: &mut DisplayBox, link: u32, size: usize, bytes: &[u8]) -> Told {
    let mut area = vec![0x5A; size];
    let way = Way::Tcp {
        link,
        area: &mut area,
    };
    told(receive(held, way, bytes), &area)
}

pub fn rs232(held: &mut DisplayBox, link: u32, bytes: &[u8]) -> Told {
    rs232_in(held, link, 512, bytes)
}

pub fn kjw(held: &mut DisplayBox, link: u32, bytes: &[u8]) -> Told {
    kjw_in(held, link, 512, bytes)
}

pub fn tcp(held: &mut DisplayBox, link: u32, bytes: &[u8]) -> Told {
    tcp_in(held, link, 512, bytes)
}

pub fn udp(held: &mut DisplayBox, bytes: &[u8]) -> u8 {
    let (number, place) = udp_at(held, bytes);
    assert_eq!(place, 0, "of the answer {number}");
    number
}

/// As [`rs232`], for an answer that has a place.
pub fn rs232_at(held: &mut DisplayBox, link: u32, bytes: &[u8]) -> ToldAt {
    let mut area = vec![0x5A; 512];
    let way = Way::Rs232c {
        link,
        area: &mut area,
    };
    told_at(receive(held, way, bytes), &area)
}

/// As [`tcp`], for an answer that has a place.
pub fn tcp_at(held: &mut DisplayBox, link: u32, bytes: &[u8]) -> ToldAt {
    let mut area = vec![0x5A; 512];
    let way = Way::Tcp {
        link,
        area: &mut area,
    };
    told_at(receive(held, way, bytes), &area)
}

/// As [`udp`], for an answer that has a place.
pub fn udp_at(held: &mut DisplayBox, bytes: &[u8]) -> (u8, usize) {
    let outcome = receive(held, Way::Udp, bytes);
    assert_eq!(outcome.written, 0);
    (outcome.answer.number(), outcome.place)
}

/// An RS-232C message from 41h with a right count and checksum.
pub fn serial(block: &[u8]) -> Vec<u8> {
    let mut bytes = vec![0x02, block.len() as u8 + 2, 0x01, 0x41];
    bytes.extend_from_slice(block);
    let sum: u32 = bytes[1..].iter().map(|byte| u32::from(*byte)).sum();
    bytes.push((256 - sum % 256) as u8);
    bytes
}

/// The reply to [`serial`] with this block.
pub fn serial_reply(block: &[u8]) -> Vec<u8> {
    let mut bytes = serial(block);
    bytes.swap(2, 3);
    bytes
}

pub fn ack() -> Told {
    (0, hex("02 03 41 01 04 B7"))
}

pub fn nak(number: u8) -> Told {
    (number, hex("02 03 41 01 05 B6"))
}

pub fn nak_at(number: u8, place: usize) -> ToldAt {
    (number, place, nak(number).1)
}

/// An SDCP request with a right length.
pub fn packet(group: u8, unit: u8, words: &[u8]) -> Vec<u8> {
    let mut bytes = hex("03 0B 53 4F 4E 59");
    bytes.extend_from_slice(&[group, unit, 0x00, 0xB0, 0x00]);
    bytes.extend_from_slice(&(words.len() as u16).to_be_bytes());
    bytes.extend_from_slice(words);
    bytes
}

/// The OK for [`packet`] with this data.
pub fn ok(group: u8, unit: u8, words: &[u8]) -> Vec<u8> {
    let mut bytes = packet(group, unit, words);
    bytes[8] = 0x01;
    bytes
}

/// The NG for [`packet`], whatever its words are.
pub fn ng(group: u8, unit: u8) -> Vec<u8> {
    packet(group, unit, &[0xF0, 0x50])
}

/// A KJW frame: `C` or `E`, letters and parameters in one text.
pub fn frame(text: &str) -> Vec<u8> {
    let mut bytes = b"*S".to_vec();
    bytes.extend_from_slice(text.as_bytes());
    bytes.push(0x0A);
    bytes
}

/// The example of document 000.
pub fn advert() -> Vec<u8> {
    let mut bytes = hex("44 41 04 0b 53 4f 4e 59 4c 4d 44 33 32 35 30 4d");
    bytes.extend(hex("44 00 00 00 00 2f 68 1e 00 00 00 00 00 00 00 00"));
    bytes.resize(120, 0);
    bytes.extend([1, 1]);
    bytes
}
