//! How document 02, §1 ("SDCP off the wire") is read where it leaves a choice: a test for each
//! reading, and at the end what §1 says of every cutting.

mod common;

use common::*;
use second::config::DisplayBox;
use second::receiver::{Call, Receiver, MOST_HELD};

const FRONT: &[u8] = b"\x03\x0BSONY";

/// A record that claims to hold these bytes, with a byte that is not 0 behind them.
fn holding(bytes: &[u8]) -> Receiver {
    let mut store = [0x03; MOST_HELD];
    store[..bytes.len()].copy_from_slice(bytes);
    Receiver {
        store,
        held: bytes.len(),
    }
}

/// The record that a call leaves: these bytes, and 0 behind them.
fn left_with(bytes: &[u8]) -> Receiver {
    let mut receiver = Receiver::empty();
    receiver.store[..bytes.len()].copy_from_slice(bytes);
    receiver.held = bytes.len();
    receiver
}

/// The header of a packet that says this length.
fn header(length: u16) -> Vec<u8> {
    let mut bytes = packet(0, 0, b"");
    bytes[11..].copy_from_slice(&length.to_be_bytes());
    bytes
}

/// Gives a piece's rest until a call hands out nothing; what was handed out.
fn all_of(receiver: &mut Receiver, piece: &[u8]) -> Vec<Vec<u8>> {
    let mut packets = Vec::new();
    let mut rest = piece;
    loop {
        let call = receiver.take(rest);
        rest = &rest[call.taken..];
        match call.packet {
            Some(packet) => packets.push(packet),
            None => {
                assert!(rest.is_empty());
                return packets;
            }
        }
    }
}

// Noise is dropped at once: after a call that hands out nothing only bytes that can begin a packet
// are held.
#[test]
fn noise_is_dropped_at_once() {
    for (piece, held) in [
        (&b"noise"[..], &b""[..]),
        (b"\x00", b""),
        (b"\x03", b"\x03"),
        (b"\x03\x03\x03", b"\x03"),
        (b"\x03\x0B\x03", b"\x03"),
        (b"\x03\x0BSON\x03\x0B", b"\x03\x0B"),
        (b"\x03\x0BSONy", b""),
        (b"\x0BSONY", b""),
        (b"noise\x03\x0BSONY", FRONT),
        (b"\x03\x0BSONY\x03\x0BSONX", b"\x03\x0BSONY\x03\x0BSONX"),
    ] {
        let mut receiver = Receiver::empty();
        assert_eq!(all_of(&mut receiver, piece), Vec::<Vec<u8>>::new());
        assert_eq!(receiver, left_with(held));
        // The same where it comes byte by byte, and where it stood in the record.
        let mut by_bytes = Receiver::empty();
        for byte in piece {
            by_bytes.take(&[*byte]);
        }
        assert_eq!(by_bytes, left_with(held));
        let mut from_record = holding(piece);
        from_record.take(&[]);
        assert_eq!(from_record, left_with(held));
    }
}

// After an overlong header the search goes on behind its 13 bytes: its data is read as noise, with
// the packets in it, and its own bytes are not looked at again.
#[test]
fn the_search_goes_on_behind_an_overlong_header() {
    let set = packet(0, 0, b"STATset LED ON");
    let overlong = header(500);
    let stream = [&overlong[..], &set, &[b'A'; 473]].concat();
    assert_eq!(stream.len(), 513);
    let packets = all_of(&mut Receiver::empty(), &stream);
    assert_eq!(packets, [overlong.clone(), set.clone()]);
    // Its last seven bytes can begin a packet: group 03h, unit 0Bh, and so on to the length 5900h.
    let twice = [FRONT, FRONT, b"\x00"].concat();
    let stream = [&twice[..], &[0x00; 6], &set].concat();
    let mut receiver = Receiver::empty();
    assert_eq!(all_of(&mut receiver, &stream), [twice, set.clone()]);
    assert_eq!(receiver, left_with(b""));
    // As a message it is 11, and 4 where nobody is addressed.
    let mut held = usual_box();
    assert_eq!(tcp_at(&mut held, 1, &overlong), (11, 11, ng(0, 0)));
    let mut to_nobody = overlong;
    to_nobody[6] = 9;
    assert_eq!(tcp(&mut held, 1, &to_nobody), (4, vec![]));
}

// §8: "The overlong header of §1 gives 9 or 10 if those fields are wrong, else 11." The receiver looks
// at neither, and hands out its 13 bytes all the same.
#[test]
fn what_an_overlong_header_is_told() {
    for length in [500, 501, 0x0200, 0xFFFF] {
        for (request, item, told) in [
            (0x00, [0xB0, 0x00], (11, 11)),
            (0x01, [0xB0, 0x00], (9, 8)),
            (0x00, [0xB0, 0x01], (10, 9)),
            (0x00, [0xA0, 0x00], (10, 9)),
            (0xFF, [0xA0, 0x01], (9, 8)),
        ] {
            let mut bytes = header(length);
            bytes[8] = request;
            bytes[9..11].copy_from_slice(&item);
            let stream = [&b"\x03"[..], &bytes, &[b'A'; 500]].concat();
            let packets = all_of(&mut Receiver::empty(), &stream);
            assert_eq!(packets, [bytes.clone()]);
            let mut reply = ng(0, 0);
            reply[9..11].copy_from_slice(&item);
            let mut held = usual_box();
            let (number, place) = told;
            assert_eq!(tcp_at(&mut held, 1, &packets[0]), (number, place, reply));
            bytes[6] = 9;
            assert_eq!(tcp(&mut held, 1, &bytes), (4, vec![]));
            assert_eq!(held, usual_box());
        }
    }
}

// Nothing inside a packet begins another: its data may hold whole packets, or begin one that goes
// on behind it.
#[test]
fn nothing_inside_a_packet_begins_another() {
    let set = packet(0, 0, b"STATset LED ON");
    let outer = packet(0, 0, &set);
    let packets = all_of(&mut Receiver::empty(), &[&outer[..], &set].concat());
    assert_eq!(packets, [outer, set.clone()]);
    let outer = packet(0, 0, &set[..6]);
    let stream = [&outer[..], &set[6..], &set].concat();
    let packets = all_of(&mut Receiver::empty(), &stream);
    assert_eq!(packets, [outer, set]);
}

// A record that holds noise, a whole packet or several (up to 512) is read before the piece: a
// packet among them is handed out with 0 taken, and the bytes behind it stay in the record as they
// are.
#[test]
fn a_record_is_read_before_the_piece() {
    let (set, get) = (
        packet(0, 0, b"STATset LED ON"),
        packet(0, 0, b"STATget LED"),
    );
    let mut receiver = holding(&[b"noise", &set[..], b"\x03noise", &get].concat());
    let out = |packet: &[u8], taken| Call {
        packet: Some(packet.to_vec()),
        taken,
    };
    assert_eq!(receiver.take(&set), out(&set, 0));
    assert_eq!(receiver, left_with(&[b"\x03noise", &get[..]].concat()));
    assert_eq!(receiver.take(&set), out(&get, 0));
    assert_eq!(receiver, left_with(b""));
    assert_eq!(receiver.take(&set), out(&set, set.len()));
    // 512 bytes: 39 packets without data, and 5 bytes of the next.
    let empty = packet(0, 0, b"");
    let mut full = empty.repeat(40);
    full.truncate(MOST_HELD);
    let mut receiver = holding(&full);
    for left in (0..39).rev() {
        assert_eq!(receiver.take(&empty[5..]), out(&empty, 0));
        assert_eq!(receiver, left_with(&full[full.len() - 5 - 13 * left..]));
    }
    assert_eq!(receiver.take(&empty[5..]), out(&empty, 8));
    assert_eq!(receiver, left_with(b""));
}

// A record is emptied where it claims more than 512, and not otherwise; what stands behind the
// bytes held counts for nothing.
#[test]
fn what_a_record_claims() {
    let set = packet(0, 0, b"STATset LED ON");
    for claimed in [513, usize::MAX] {
        let mut receiver = holding(&set);
        receiver.held = claimed;
        assert_eq!(receiver.take(&set[..4]).packet, None);
        assert_eq!(receiver, left_with(&set[..4]));
    }
    let mut receiver = holding(&set);
    receiver.held = 4;
    assert_eq!(receiver.take(&[]).packet, None);
    assert_eq!(receiver, left_with(&set[..4]));
}

/// What §1 says of a stream, looked at all at once: its packets, and what is left at its end.
fn packets_of(stream: &[u8]) -> (Vec<Vec<u8>>, Vec<u8>) {
    let mut packets = Vec::new();
    let mut rest = stream;
    loop {
        let can_begin = |rest: &[u8]| rest.starts_with(FRONT) || FRONT.starts_with(rest);
        while !can_begin(rest) {
            rest = &rest[1..];
        }
        if rest.len() < 13 {
            return (packets, rest.to_vec());
        }
        let length = 256 * usize::from(rest[11]) + usize::from(rest[12]);
        let end = if length > 499 { 13 } else { 13 + length };
        if rest.len() < end {
            return (packets, rest.to_vec());
        }
        packets.push(rest[..end].to_vec());
        rest = &rest[end..];
    }
}

/// A small random number generator, the same at every run.
struct Chance(u32);

impl Chance {
    fn below(&mut self, bound: usize) -> usize {
        self.0 = self.0.wrapping_mul(1_664_525).wrapping_add(1_013_904_223);
        (self.0 >> 8) as usize % bound
    }

    /// A stream of packets, of beginnings of them, and of noise.
    fn stream(&mut self, parts: usize) -> Vec<u8> {
        let mut stream = Vec::new();
        for _ in 0..self.below(parts + 1) {
            let set = format!("STATset VOLUME {}", self.below(120));
            let set = packet(0, 0, set.as_bytes());
            match self.below(9) {
                0 => stream.extend_from_slice(b"\x03"),
                1 => stream.extend_from_slice(&set[..self.below(8)]),
                2 => stream.extend_from_slice(&set[..self.below(set.len())]),
                3 => stream.extend_from_slice(&header(500 + self.below(3) as u16)),
                4 => stream.extend_from_slice(&[FRONT, FRONT, b"\x03"].concat()),
                5 => stream.extend_from_slice(&packet(0, 0, &set)),
                6 => stream.push(self.below(256) as u8),
                _ => stream.extend_from_slice(&set),
            }
        }
        stream
    }
}

/// Every packet that a stream in these pieces hands out, what the box replies to it, the box after
/// them, and the record.
type AtTheEnd = (Vec<(Vec<u8>, ToldAt)>, DisplayBox, Receiver);

fn at_the_end(record: &Receiver, pieces: &[&[u8]]) -> AtTheEnd {
    let mut receiver = record.clone();
    let mut held = usual_box();
    let mut told = Vec::new();
    for piece in pieces {
        for packet in all_of(&mut receiver, piece) {
            let reply = tcp_at(&mut held, 1, &packet);
            told.push((packet, reply));
        }
    }
    (told, held, receiver)
}

// "The packets, replies and receiver state at the end are the same for every cutting into one piece
// or more": over all records, and over lists of one piece or more.
#[test]
fn every_cutting_comes_to_the_same() {
    let mut chance = Chance(1);
    let mut handed_out = 0;
    for round in 0..200 {
        // A record of any bytes; every fourth claims to hold more than it can.
        let mut bytes = chance.stream(8);
        bytes.truncate(MOST_HELD);
        let mut record = holding(&bytes);
        if round % 4 == 0 {
            record.held = MOST_HELD + 1 + chance.below(3);
            bytes.clear();
        }
        let stream = chance.stream(6);
        let whole = at_the_end(&record, &[&stream]);

        let (packets, left) = packets_of(&[&bytes[..], &stream].concat());
        let told: Vec<Vec<u8>> = whole.0.iter().map(|(packet, _)| packet.clone()).collect();
        assert_eq!(told, packets);
        assert_eq!(whole.2, left_with(&left));
        handed_out += packets.len();

        for cut in 0..=stream.len() {
            let (first, second) = stream.split_at(cut);
            assert_eq!(at_the_end(&record, &[first, second]), whole);
        }
        let by_bytes: Vec<&[u8]> = stream.chunks(1).collect();
        if !by_bytes.is_empty() {
            assert_eq!(at_the_end(&record, &by_bytes), whole);
        }
        for _ in 0..20 {
            let mut pieces = Vec::new();
            let mut rest = &stream[..];
            while !rest.is_empty() {
                let (piece, behind) = rest.split_at(chance.below(rest.len() + 1));
                pieces.push(piece);
                rest = behind;
            }
            pieces.push(rest);
            assert_eq!(at_the_end(&record, &pieces), whole);
        }
    }
    assert!(handed_out > 500);
}
