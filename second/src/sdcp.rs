//! Document 01, "SDCP and VMC (001, 002, 004)": the packet round the words.
//!
//! "Numbers are high byte first: version 03h, category 0Bh, community "SONY", group, unit,
//! request, item (2), data length (2), data."

use crate::address::{addressed, WayIn};
use crate::answer::{Answer, Part, Reply};
use crate::config::DisplayBox;
use crate::panel::{Settings, WSettings};
use crate::vmc;

/// The bytes before the data.
const HEADER: usize = 13;

/// "data length over 499".
const MOST_DATA: usize = 499;

/// The answer to a packet, with the data that an OK carries.
struct Reading {
    answer: Answer,
    data: Vec<u8>,
}

impl Reading {
    fn refused(answer: Answer) -> Reading {
        Reading {
            answer,
            data: Vec::new(),
        }
    }
}

/// A packet by TCP on the link of a W panel.
pub fn receive_by_tcp(held: &mut DisplayBox, link: u32, bytes: &[u8]) -> Reply {
    let reading = read(held, WayIn::Tcp(link), bytes);
    let reply = match reading.answer {
        Answer::CarriedOut | Answer::NotUnderstood => ok(bytes, &reading.data),
        Answer::WrongPart(_) => ng(bytes),
        _ => Vec::new(),
    };
    Reply::new(reading.answer, reply)
}

/// A packet by UDP: no reply at all.
pub fn receive_by_udp(held: &mut DisplayBox, bytes: &[u8]) -> Answer {
    read(held, WayIn::Udp, bytes).answer
}

fn read(held: &mut DisplayBox, way: WayIn, bytes: &[u8]) -> Reading {
    // "Under 13 bytes: 3."
    if bytes.len() < HEADER {
        return Reading::refused(Answer::WrongLength);
    }
    // "Wrong version, category or community, or no panel addressed: 4."
    let places = addressed(held, way, bytes);
    if places.is_empty() {
        return Reading::refused(Answer::NotForUs);
    }
    // Document 02, §8: its numbers stand "at the old place of 5".
    if let Some(part) = wrong_part(bytes) {
        return Reading::refused(Answer::WrongPart(part));
    }
    // Document 02, §5, "No status by broadcast": "Refusals: 8, after 5 and before 6."
    if way == WayIn::Udp && vmc::asks_for_status(&bytes[HEADER..]) {
        return Reading::refused(Answer::StatusByBroadcast);
    }
    // "The data area, from byte 13 to its end, is read", without what a console put behind its words
    // (document 02, §2). The envelope was judged on the data as it was sent.
    let Some(order) = vmc::read(&bytes[HEADER..]) else {
        return Reading::refused(Answer::NotUnderstood);
    };
    let mut data = Vec::new();
    for place in places {
        if let Settings::W(settings) = &mut held.panels[place].settings {
            data = carry_out(settings, &order);
        }
    }
    Reading {
        answer: Answer::CarriedOut,
        data,
    }
}

/// "request is not 00h, item not B000h, data length over 499, or data length not the number of bytes
/// that follow": document 01 gave 5 to each. Document 02, §8 tells them apart, "in that order", and
/// the first that is wrong is given. The overlong header of §1 is judged as any packet is: "9 or 10
/// if those fields are wrong, else 11".
fn wrong_part(bytes: &[u8]) -> Option<Part> {
    let request = bytes[8];
    let item = u16::from_be_bytes([bytes[9], bytes[10]]);
    let length = usize::from(u16::from_be_bytes([bytes[11], bytes[12]]));
    if request != 0x00 {
        Some(Part::Request)
    } else if item != 0xB000 {
        Some(Part::Item)
    } else if length > MOST_DATA {
        Some(Part::LengthOver499)
    } else if length != bytes.len() - HEADER {
        Some(Part::LengthNotMatching)
    } else {
        None
    }
}

/// Does what the words say; the data that an OK carries comes back.
fn carry_out(settings: &mut WSettings, order: &vmc::Order) -> Vec<u8> {
    match order {
        vmc::Order::Set(change) => {
            vmc::set(settings, *change);
            Vec::new()
        }
        vmc::Order::Get(name) => vmc::words(settings, *name).into_bytes(),
    }
}

/// "NG: request's first eight bytes, 00h, its item, length 2, F0h 50h."
fn ng(request: &[u8]) -> Vec<u8> {
    response(request, 0x00, &[0xF0, 0x50])
}

/// "OK is the same with 01h and the data's length."
fn ok(request: &[u8], data: &[u8]) -> Vec<u8> {
    response(request, 0x01, data)
}

fn response(request: &[u8], kind: u8, data: &[u8]) -> Vec<u8> {
    let mut bytes = request[..8].to_vec();
    bytes.push(kind);
    bytes.extend_from_slice(&request[9..11]);
    bytes.extend_from_slice(&(data.len() as u16).to_be_bytes());
    bytes.extend_from_slice(data);
    bytes
}
