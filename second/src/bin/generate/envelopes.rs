//! Envelopes with one part wrong, and with two or more (document 02, §8): what is told is the first
//! of them, in the order of the numbers, and where its field begins.

use crate::make::{close, packet, serial, Script};
use crate::sweep::{HOUSE, K, PANELS, W};
use crate::wire::{flush, header};

/// Makes one thing wrong.
type Fault = fn(&mut Vec<u8>);

/// Every part of a packet wrong in some way, and what is judged before the envelope and behind it.
/// The last one leaves too few bytes for the others.
const PACKET_FAULTS: [Fault; 18] = [
    |message| message[0] = 0x04,
    |message| message[1] = 0x0C,
    |message| message[5] = b'y',
    |message| message[6] = 9,
    |message| message[8] = 0x01,
    |message| message[8] = 0xFF,
    |message| message[9] = 0xA0,
    |message| message[10] = 0x01,
    |message| say(message, 500),
    |message| say(message, 0xFFFF),
    |message| message[11] = 0x01,
    |message| say(message, 0),
    |message| message[12] = message[12].wrapping_sub(1),
    |message| message[12] = message[12].wrapping_add(1),
    |message| message.push(b' '),
    |message| message.truncate(message.len() - 1),
    |message| message[13] = b's',
    |message| message.truncate(12),
];

/// Every part of an RS-232C message wrong in some way but the checksum.
const SERIAL_FAULTS: [Fault; 12] = [
    |message| message[0] = 0x03,
    |message| message[2] = 0x02,
    |message| message[3] = 0x40,
    |message| message[3] = 0x80,
    |message| message[1] += 1,
    |message| message[1] -= 1,
    |message| message[1] = 0x00,
    |message| message[1] = 0xFF,
    |message| message[4] = 0x6F,
    |message| message.push(0x00),
    |message| message.truncate(message.len() - 1),
    |message| message.truncate(5),
];

/// Writes a data length into a packet.
fn say(message: &mut [u8], length: u16) {
    message[11..13].copy_from_slice(&length.to_be_bytes());
}

/// No fault, each alone, and every two, the later one made behind the earlier.
fn alone_and_in_pairs(faults: &[Fault]) -> Vec<Vec<Fault>> {
    let mut choices = vec![Vec::new()];
    for (place, first) in faults.iter().enumerate() {
        choices.push(vec![*first]);
        choices.extend(
            faults[place + 1..]
                .iter()
                .map(|second| vec![*first, *second]),
        );
    }
    choices
}

/// A packet that is made for these IDs: by TCP to the link's own panel and to a pair, by UDP to a
/// group, to all and to a pair, and off the wire.
fn every_way(script: &mut Script, made: impl Fn(u8, u8) -> Vec<u8>) {
    script.tcp(W, 512, &made(0, 0));
    script.tcp(W, 512, &made(1, 3));
    script.udp(&made(1, 255));
    script.udp(&made(255, 255));
    script.udp(&made(1, 2));
    script.piece(W, 512, &made(0, 0));
    flush(script, W);
}

/// Every wrong part of a packet alone, and every two of them.
pub fn packets(script: &mut Script) {
    script.line(HOUSE);
    for words in [&b"STATset LED ON"[..], b"STATget LED"] {
        for faults in alone_and_in_pairs(&PACKET_FAULTS) {
            let made = |group, unit| {
                let mut message = packet(group, unit, words);
                faults.iter().for_each(|fault| fault(&mut message));
                message
            };
            every_way(script, made);
            // A small area, and a link that is none of a W panel, come before all of it.
            if faults.len() < 2 {
                script.tcp(W, 511, &made(0, 0));
                script.tcp(K, 512, &made(0, 0));
                script.show_all(PANELS);
            }
        }
    }
    script.show_all(PANELS);
}

/// Every choice of wrong parts, to all four of them, round words of every kind.
pub fn choices(script: &mut Script) {
    script.line(HOUSE);
    let long = [b' '; 500];
    for words in [
        &b"STATset LED ON"[..],
        b"STATget LED",
        b"no words",
        b"",
        &long,
    ] {
        let right = words.len() as u16;
        for length in [right, right + 1, right.saturating_sub(1), 499, 500, 0xFFFF] {
            for item in [0xB000_u16, 0xB001, 0xA000] {
                for request in [0x00, 0x01] {
                    every_way(script, |group, unit| {
                        let mut message = packet(group, unit, words);
                        message[8] = request;
                        message[9..11].copy_from_slice(&item.to_be_bytes());
                        say(&mut message, length);
                        message
                    });
                }
            }
        }
    }
    script.show_all(PANELS);
}

/// Data lengths about the number of bytes that follow, about 499, and such as fit modulo 256 only.
pub fn data_lengths(script: &mut Script) {
    script.line(HOUSE);
    let mut about = |follow: usize, said: u16| {
        for (group, unit) in [(0, 0), (1, 255), (255, 255)] {
            let mut message = packet(group, unit, &vec![b'A'; follow]);
            say(&mut message, said);
            if group == 0 {
                script.tcp(W, 512, &message);
            } else {
                script.udp(&message);
            }
        }
    };
    for follow in 0..=5 {
        for said in (0..=5).chain(256..=261).chain([499, 500]).chain(512..=517) {
            about(follow, said);
        }
    }
    for follow in 496..=503 {
        for said in 496..=503 {
            about(follow, said);
        }
    }
    // The first length that is over, and the last that is not, with every low byte.
    for low in 0..=255 {
        about(244, 0x0100 | low);
    }
    script.show_all(PANELS);
}

/// Headers without data, overlong ones among them, with the request and the item right and wrong.
pub fn overlong_headers(script: &mut Script) {
    script.line(HOUSE);
    let get = packet(0, 0, b"STATget LED");
    for (group, unit) in [(0, 0), (1, 3), (9, 9), (1, 255)] {
        for request in [0x00, 0x01, 0xFF] {
            for item in [0xB000_u16, 0xB001, 0xA000] {
                for length in [0, 500, 501, 0x0200, 0xFFFF] {
                    let mut message = header(length);
                    message[6..9].copy_from_slice(&[group, unit, request]);
                    message[9..11].copy_from_slice(&item.to_be_bytes());
                    script.tcp(W, 512, &message);
                    script.udp(&message);
                    let stream = [&message[..], &get].concat();
                    script.piece(W, 512, &stream);
                    if length == 500 {
                        for cut in 8..=12 {
                            script.piece(W, 512, &stream[..cut]);
                            script.piece(W, 512, &stream[cut..]);
                        }
                        script.piece(W, 511, &stream);
                        script.piece(K, 512, &stream);
                    }
                }
            }
        }
    }
    script.show_all(PANELS);
}

/// Every wrong part of an RS-232C message alone, and every two of them, each with the checksum that
/// fits them, with another, and with the one that fitted before.
pub fn serials(script: &mut Script) {
    script.line(HOUSE);
    for block in [&[0x22, 0x12][..], &[0x6E], &[0x61, 0x01]] {
        for faults in alone_and_in_pairs(&SERIAL_FAULTS) {
            let mut message = serial(0x42, block);
            faults.iter().for_each(|fault| fault(&mut message));
            script.rs232(W, 512, &message);
            close(&mut message);
            script.rs232(W, 512, &message);
            let last = message.len() - 1;
            message[last] ^= 0x40;
            script.rs232(W, 512, &message);
            if faults.len() < 2 {
                script.rs232(W, 511, &message);
                script.rs232(K, 512, &message);
                script.show(W);
            }
        }
        script.rs232(W, 512, &serial(0x41, &[0x22, 0x30]));
    }
    script.show_all(PANELS);
}

/// RS-232C messages of every length that a byte count can say, and of some that it cannot: a wrong
/// checksum, a wrong count, and both.
pub fn serial_lengths(script: &mut Script) {
    script.line(HOUSE);
    for length in (6..=258).chain([259, 260, 261, 262, 263, 511, 512, 513, 514, 515, 518, 1024]) {
        let good = serial(0x41 + (length % 63) as u8, &vec![0x6E; length - 5]);
        for more in [0, 1, 255] {
            let mut message = good.clone();
            message[1] = message[1].wrapping_add(more);
            script.rs232(W, 512, &message);
            close(&mut message);
            script.rs232(W, 512, &message);
            message[length - 1] ^= 1 << (length % 8);
            script.rs232(W, 512, &message);
        }
    }
    script.show_all(PANELS);
}
