//! Whole buffers for the plain reader (document 02, §7): packets, overlong headers, noise and tails,
//! often about as many of them as its list holds.

use crate::make::{packet, Script};
use crate::rng::Rng;
use crate::sweep::HOUSE;
use crate::wire::{filled, header, header_with_a_front, near_front, noise, stretch, FRONT, MOST};
use crate::words;

/// A random buffer.
pub fn buffer(rng: &mut Rng) -> Vec<u8> {
    let mut buffer = match rng.below(8) {
        0..=2 => short_ones(rng),
        3 => {
            let count = rng.below(MOST + 1);
            (0..count).map(|_| rng.pick(b"\x03\x0BSONY\x00")).collect()
        }
        _ => long_ones(rng),
    };
    if rng.once_in(3) {
        buffer.extend(tail(rng));
    }
    if rng.once_in(8) {
        buffer.truncate(rng.below(buffer.len() + 1));
    }
    buffer.truncate(MOST);
    buffer
}

/// About 64 packets without data and overlong headers, here and there with a byte or two between.
fn short_ones(rng: &mut Rng) -> Vec<u8> {
    let count = rng.pick(&[63, 63, 64, 64, 64, 65, 65, 66, 70]);
    let troubles = rng.pick(&[0, 1, 5, 40]);
    let mut buffer = Vec::new();
    for _ in 0..count {
        if rng.below(100) < troubles {
            buffer.extend(rng.pick(&[&b"A"[..], b"\x03", b"\x00\x03", b"\x03\x0B"]));
        }
        let length = if rng.below(100) < troubles { 500 } else { 0 };
        buffer.extend(header(length));
    }
    buffer
}

/// Some packets with their words, and with every kind of trouble round them.
fn long_ones(rng: &mut Rng) -> Vec<u8> {
    let mut buffer = Vec::new();
    for _ in 0..rng.pick(&[0, 1, 2, 3, 5, 9, 30]) {
        let message = packet(0, 0, &words::text(rng));
        buffer.extend(stretch(rng, message));
    }
    buffer
}

/// What a buffer may end with: a packet that is not whole, noise, or what can just begin a packet.
fn tail(rng: &mut Rng) -> Vec<u8> {
    let message = packet(0, 0, &words::text(rng));
    match rng.below(7) {
        0 => message[..rng.below(message.len())].to_vec(),
        1 => message[..1 + rng.below(13)].to_vec(),
        2 => header(500 + rng.below(3) as u16)[..12].to_vec(),
        3 => noise(rng),
        4 => near_front(rng),
        5 => b"noise"[..1 + rng.below(5)].to_vec(),
        _ => vec![0x03],
    }
}

/// Every count of packets to 66 and beyond, with and without noise before each, and with every kind
/// of tail.
pub fn counts(script: &mut Script) {
    let empty = header(0);
    let two = packet(0, 0, b"AB");
    let tails: [&[u8]; 8] = [
        b"",
        b"A",
        b"\x03",
        b"A\x03\x0BSON",
        &empty[..12],
        &header(500)[..12],
        &two[..14],
        b"\x03\x0BSONy",
    ];
    for count in 0..=66 {
        for noise in [&b""[..], b"A", b"\x03"] {
            let packets = [noise, &empty].concat().repeat(count);
            for tail in tails {
                script.plain(&[&packets[..], tail].concat());
            }
        }
    }
    for count in 67..=78 {
        script.plain(&empty.repeat(count));
    }
    // The longest buffer: 78 packets, and ten bytes of the next.
    script.plain(&[&empty.repeat(78), &empty[..10]].concat());
}

/// Round 64 entries: which of them is an overlong header, and what stands before and behind the 65th.
pub fn full_lists(script: &mut Script) {
    let (empty, overlong) = (header(0), header(500));
    for count in 62..=67 {
        for longer in [&overlong, &header(0xFFFF)] {
            for place in [0, 1, 61, 62, 63, 64, 65, 66] {
                let entries: Vec<u8> = (0..count)
                    .flat_map(|at| if at == place { longer } else { &empty }.clone())
                    .collect();
                script.plain(&entries);
            }
            script.plain(&longer.repeat(count));
        }
    }
    let longer = packet(0, 0, b"STATset VOLUME 41");
    for count in [63, 64, 65] {
        for between in 0..=20 {
            for noise in [0x00, 0x03] {
                let noise = vec![noise; between];
                for last in [&empty, &overlong, &longer] {
                    let buffer = [&empty.repeat(count)[..], &noise, last, b"A"].concat();
                    script.plain(&buffer);
                }
            }
        }
        // The last packet cut off at every place.
        for last in [&overlong, &longer] {
            for cut in 0..=last.len() {
                script.plain(&[&empty.repeat(count), &last[..cut]].concat());
                script.plain(&[&empty.repeat(count), &b"AB"[..], &last[..cut]].concat());
            }
        }
    }
}

/// Buffers that end at every place of a stream, and that begin there.
pub fn ends(script: &mut Script) {
    let set = packet(0, 0, b"STATset VOLUME 41");
    let get = packet(0, 0, b"STATget VOLUME");
    let stream = [
        b"\x03\x0B",
        &set[..],
        b"A\x03B\x03",
        &get,
        &header(500),
        b"\x03\x0BSO",
        &packet(0, 0, &get),
        &header_with_a_front(0x00),
        &set,
        b"noise\x03",
    ]
    .concat();
    for cut in 0..=stream.len() {
        script.plain(&stream[..cut]);
        script.plain(&stream[cut..]);
    }
    for count in (0..=20).chain([100, 1000, MOST]) {
        for byte in *b"\x03\x0B\x00S" {
            let mut noise = vec![byte; count];
            script.plain(&noise);
            noise.truncate(MOST - get.len());
            script.plain(&[&noise[..], &get].concat());
            script.plain(&[&get[..], &noise].concat());
        }
    }
    for byte in 0..=255 {
        script.plain(&[byte]);
        script.plain(&[&get[..], &[byte]].concat());
    }
    for first in 0..=6 {
        for second in 0..=6 {
            let fronts = [&FRONT[..first], &FRONT[..second]].concat();
            script.plain(&fronts);
            script.plain(&[&fronts[..], b"A", &get].concat());
            script.plain(&[&get[..], &fronts].concat());
        }
    }
}

/// Packets of every length and what is longer, whole, a byte short, and with a packet behind them.
pub fn lengths(script: &mut Script) {
    let get = packet(0, 0, b"STATget LED");
    for length in (0..=20).chain([100, 255, 256, 257]).chain(490..=510) {
        for filler in [b'A', 0x03] {
            let whole = filled(&[], length, filler);
            script.plain(&whole);
            script.plain(&whole[..whole.len() - 1]);
            script.plain(&[&whole[..], &get].concat());
            let mut two = whole.repeat(2);
            two.truncate(MOST);
            script.plain(&two);
        }
    }
    for length in [500, 501, 511, 512, 513, 755, 756, 0x7FFF, 0x8000, 0xFFFF] {
        for count in [0, 1, 6, 13, 499, 500, 501] {
            let filler = vec![b'A'; count];
            script.plain(&[&header(length)[..], &filler, &get].concat());
            script.plain(&[&get[..], &header(length), &filler].concat());
        }
    }
    // Many headers: every high byte of the length, with two low ones.
    for high in (0..=255).step_by(16) {
        let lengths = (high..high + 16).flat_map(|high| [high << 8 | 0xF3, high << 8 | 0xF4]);
        script.plain(&lengths.flat_map(header).collect::<Vec<u8>>());
    }
    // Every bit of the header the other way round.
    for place in 0..13 {
        for bit in 0..8 {
            let mut changed = get.clone();
            changed[place] ^= 1 << bit;
            script.plain(&[&changed[..], &get].concat());
        }
    }
    // Data that looks like a packet, or like the front of one.
    for cut in 0..=get.len() {
        let outer = packet(0, 0, &get[..cut]);
        script.plain(&[&outer[..], &get[cut..], &get].concat());
        script.plain(&outer);
    }
}

/// The plain reader takes nothing from the receivers, and leaves them alone.
pub fn beside_receivers(script: &mut Script) {
    script.line(HOUSE);
    let set = packet(0, 0, b"STATset VOLUME 41");
    for cut in [1, 6, 12, 13, 20, set.len() - 1] {
        for link in 1..=8 {
            script.piece(link, 512, &set[..cut]);
        }
        script.plain(&set[cut..]);
        script.plain(&set[..cut]);
        script.plain(&set);
        for link in 1..=8 {
            script.piece(link, 512, &set[cut..]);
        }
    }
}
