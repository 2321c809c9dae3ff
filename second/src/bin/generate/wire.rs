//! What comes off the wires of the TCP links: packets cut anywhere, and what is none.

use crate::make::{frame, packet, serial, Script};
use crate::rng::Rng;
use crate::sweep::{HOUSE, K, PANELS, W};

/// What a packet begins with.
pub const FRONT: &[u8] = b"\x03\x0BSONY";

/// The most bytes of a piece, and of every HEX.
pub const MOST: usize = 1024;

/// The header of a packet that says this length.
pub fn header(length: u16) -> Vec<u8> {
    let mut bytes = packet(0, 0, b"");
    bytes[11..].copy_from_slice(&length.to_be_bytes());
    bytes
}

/// An overlong header whose own bytes go on as a packet might begin: group 03h, unit 0Bh, and so on
/// to a length of 5900h and more.
pub fn header_with_a_front(last: u8) -> Vec<u8> {
    [FRONT, FRONT, &[last]].concat()
}

/// A packet with its data filled up to this length.
pub fn filled(packet_before: &[u8], length: usize, filler: u8) -> Vec<u8> {
    let mut data = packet_before.get(13..).unwrap_or_default().to_vec();
    data.resize(length, filler);
    packet(0, 0, &data)
}

/// Something for a wire: this message, mostly with some trouble round it.
pub fn stretch(rng: &mut Rng, message: Vec<u8>) -> Vec<u8> {
    match rng.below(24) {
        0..=5 => message,
        6 => message.repeat(2 + rng.below(4)),
        7 => packet(0, 0, b"").repeat(1 + rng.below(5)),
        8..=9 => [noise(rng), message].concat(),
        10..=12 => [near_front(rng), message].concat(),
        13 => {
            let length = rng.pick(&[500, 501, 511, 512, 513, 767, 768, 0x7FFF, 0x8000, 0xFFFF]);
            let count = rng.pick(&[0, 1, 12, 13, 14, 100, 499, 500, 501]);
            let filler = rng.pick(&[0x00, 0x03, b'A']);
            [header(length), vec![filler; count], message].concat()
        }
        14 => {
            let length = 500 + rng.below(600) as u16;
            [header(length), message, near_front(rng)].concat()
        }
        15 => {
            let count = rng.below(8);
            [header_with_a_front(rng.byte()), vec![0; count], message].concat()
        }
        // Data that looks like a packet, whole or cut off.
        16 => packet(0, 0, &message),
        17 => {
            let cut = rng.below(message.len() + 1);
            [packet(0, 0, &message[..cut]), message[cut..].to_vec()].concat()
        }
        18..=19 => {
            let length = rng.pick(&[497, 498, 499, 499, 499, 500, 501]);
            filled(&message, length, rng.pick(b" A\0\x03"))
        }
        // The length takes in some of what follows, or not all of the data.
        20 => {
            let mut bytes = message;
            if let Some(low) = bytes.get_mut(12) {
                *low = low.wrapping_add(rng.pick(&[1, 2, 13, 30, 255, 254]));
            }
            bytes
        }
        21 => {
            let cut = rng.below(message.len() + 1);
            message[..cut].to_vec()
        }
        22 => noise(rng),
        _ => near_front(rng),
    }
}

/// Bytes that begin no packet, but for the last ones perhaps.
pub fn noise(rng: &mut Rng) -> Vec<u8> {
    let count = 1 + rng.pick(&[0, 1, 2, 5, 12, 13, 40]);
    match rng.below(4) {
        0 => vec![0x03; count],
        1 => (0..count).map(|_| rng.pick(b"\x03\x0BSONY\x00")).collect(),
        2 => vec![0x00; count],
        _ => rng.bytes(count),
    }
}

/// The front of a packet, cut off or spoiled, perhaps more than one.
pub fn near_front(rng: &mut Rng) -> Vec<u8> {
    let mut bytes = Vec::new();
    for _ in 0..1 + rng.below(3) {
        let mut front = FRONT[..1 + rng.below(6)].to_vec();
        match rng.below(5) {
            0 => {
                let place = rng.below(front.len());
                front[place] ^= rng.pick(&[0x01, 0x20, 0x80]);
            }
            1 => {
                let place = rng.below(front.len());
                front.insert(place, rng.pick(&[0x00, 0x03, 0x0B, b'S']));
            }
            2 => {
                front.remove(rng.below(front.len()));
            }
            _ => {}
        }
        bytes.extend(front);
    }
    bytes
}

/// Where to cut what waits on a wire, so many bytes of it.
pub fn cut(rng: &mut Rng, waiting: usize) -> usize {
    let most = waiting.min(MOST);
    match rng.below(16) {
        0 => 0,
        1..=6 => most,
        7 => 1.min(most),
        8 => most.saturating_sub(1),
        9..=10 => rng.pick(&[2, 3, 5, 6, 7, 11, 12, 13, 14]).min(most),
        11 => rng.pick(&[510, 511, 512, 513]).min(most),
        _ => rng.below(most + 1),
    }
}

/// A piece that leaves a receiver empty, whatever it held.
pub fn flush(script: &mut Script, link: u64) {
    script.piece(link, 512, &[0; 512]);
}

/// The pieces of a stream, one order each.
fn in_pieces<'a>(script: &mut Script, link: u64, pieces: impl IntoIterator<Item = &'a [u8]>) {
    for piece in pieces {
        script.piece(link, 512, piece);
    }
}

/// Every link, every area, and every other order between two pieces.
pub fn links_and_areas(script: &mut Script) {
    script.line(HOUSE);
    let set = packet(0, 0, b"STATset LED ON");
    let by_pair = packet(2, 1, b"STATset HVDELAY ON");
    let to_nobody = packet(9, 9, b"STATset LED ON");
    for link in (0..=10).chain([
        16,
        255,
        256,
        257,
        264,
        65_537,
        4_294_967_295,
        4_294_967_296,
        4_294_967_297,
    ]) {
        for bytes in [&set, &by_pair, &to_nobody] {
            script.piece(link, 512, bytes);
            script.piece(link, 511, bytes);
        }
        script.piece(link, 512, &[]);
        script.show_all(PANELS);
    }
    for area in [0, 1, 122, 510, 511, 512, 513, 1023, 1024, 1025] {
        for link in [W, K] {
            script.piece(link, area, &[&set[..], &by_pair, &set[..20]].concat());
            script.piece(link, area, &set[20..]);
            flush(script, link);
        }
        script.show_all(PANELS);
        script.line(HOUSE);
    }
    // Every receiver has the front of a packet, and gets the rest of it later.
    for link in 1..=8 {
        script.piece(link, 512, &set[..3 * link as usize]);
    }
    for link in (1..=8).rev() {
        script.piece(link, 512, &set[3 * link as usize..]);
    }
    // Two streams, byte by byte.
    for (first, other) in set.iter().zip(&by_pair) {
        script.piece(1, 512, &[*first]);
        script.piece(2, 512, &[*other]);
    }
    flush(script, 2);
    // Between two pieces: boxes, messages and lines of every kind.
    for cut in [1, 5, 6, 12, 13, 14, set.len() - 1] {
        let mut between: Vec<Vec<u8>> =
            [HOUSE, "box", "box W 1 2", "show 1", "hello", "piece 1 512"]
                .iter()
                .map(|line| line.as_bytes().to_vec())
                .collect();
        between.push(b"piece 0 512 FF".to_vec());
        between.push(b"piece 9 512 FF".to_vec());
        between.push(b"piece 2 512 FF".to_vec());
        for line in between {
            script.piece(1, 512, &set[..cut]);
            script.line(line);
            script.piece(1, 512, &set[cut..]);
            script.line(HOUSE);
        }
        script.piece(1, 512, &set[..cut]);
        script.tcp(1, 512, &set);
        script.tcp(1, 512, &set[cut..]);
        script.udp(&packet(255, 255, b"STATset LED OFF"));
        script.rs232(1, 512, &serial(0x41, &[0x6E]));
        script.kjw(K, 512, &frame(b'C', b"TPOW", &[b'#'; 16]));
        script.show_all(PANELS);
        script.piece(1, 512, &set[cut..]);
        script.show_all(PANELS);
    }
}

/// Streams in pieces of every length, and cut at every place.
pub fn cuts(script: &mut Script) {
    script.line(HOUSE);
    let set = packet(0, 0, b"STATset VOLUME 41");
    let get = packet(0, 0, b"STATget VOLUME");
    let stream = [
        b"\x03\x0B",
        &set[..],
        b"A\x03B\x03",
        &get,
        &header(500),
        b"\x03\x0BSO",
        &set,
        b"\x03",
    ]
    .concat();
    for cut in 0..=stream.len() {
        let (first, second) = stream.split_at(cut);
        in_pieces(script, W, [first, second]);
        flush(script, W);
    }
    for length in 1..=40 {
        in_pieces(script, W, stream.chunks(length));
        flush(script, W);
    }
    let short = [b"\x03", &packet(0, 0, b"STATget LED")[..]].concat();
    for first in 0..=short.len() {
        for second in first..=short.len() {
            let pieces = [&short[..first], &short[first..second], &short[second..]];
            in_pieces(script, W, pieces);
        }
    }
    // Several packets in one piece, and the beginning of the next.
    for (count, one) in [(78, packet(0, 0, b"")), (34, set.clone()), (5, get.clone())] {
        let many = one.repeat(count);
        script.piece(W, 512, &many);
        script.piece(W, 512, &many[1..]);
        let mut piece = many.clone();
        piece.resize(MOST, 0x03);
        script.piece(W, 512, &piece);
        flush(script, W);
    }
    for count in [1, 2, 3, 5] {
        for cut in [1, 5, 6, 7, 12, 13, 14, 29] {
            script.piece(W, 512, &[&get.repeat(count), &set[..cut]].concat());
            script.piece(W, 512, &set[cut..]);
        }
    }
    // The longest packet in pieces of every kind.
    let longest = filled(&set, 499, b' ');
    in_pieces(script, W, longest.chunks(1));
    for length in [2, 3, 13, 100, 255, 256, 499, 510, 511, 512] {
        in_pieces(script, W, longest.chunks(length));
        in_pieces(script, W, [&longest[..length], &longest[length..]]);
        script.show(W);
    }
    in_pieces(script, W, [&longest[..], &longest]);
    in_pieces(script, W, [&longest.repeat(2)[..511], &longest[511..]]);
}

/// Every byte in every place of the front and of the length, and some in the places between.
pub fn headers(script: &mut Script) {
    script.line(HOUSE);
    let good = packet(0, 0, b"STATget LED");
    for place in 0..13 {
        for byte in 0..=255 {
            if (6..11).contains(&place) && !matches!(byte, 0..=3 | 11 | 99 | 176 | 255) {
                continue;
            }
            let mut message = good.clone();
            message[place] = byte;
            script.piece(W, 512, &[&message[..], &good].concat());
            if place > 10 {
                flush(script, W);
            }
        }
    }
    // Many headers in one piece: every high byte of the length, with two low ones.
    for high in (0..=255).step_by(16) {
        let lengths = (high..high + 16).flat_map(|high| [high << 8 | 0xF3, high << 8 | 0xF4]);
        let piece: Vec<u8> = lengths.flat_map(header).collect();
        script.piece(W, 512, &piece);
        flush(script, W);
    }
}

/// Packets of every length, and what is longer.
pub fn lengths(script: &mut Script) {
    script.line(HOUSE);
    let get = packet(0, 0, b"STATget LED");
    for count in 0..=530 {
        if (20..=490).contains(&count) && count % 40 != 0 {
            continue;
        }
        let message = packet(0, 0, &vec![b'A'; count]);
        let (most, last) = message.split_at(message.len() - 1);
        script.piece(W, 512, &message);
        script.piece(W, 512, most);
        script.piece(W, 512, &[last, &get, &get[..4]].concat());
        script.piece(W, 512, &get[4..]);
        flush(script, W);
    }
    for length in [
        500, 501, 511, 512, 513, 755, 756, 1011, 0x7FFF, 0x8000, 0xFFFF,
    ] {
        for count in [0, 1, 5, 6, 12, 13, 14, 499, 500, 501, 900] {
            for filler in [0x00, 0x03] {
                let piece = [header(length), vec![filler; count], get.clone()].concat();
                script.piece(W, 512, &piece);
            }
        }
        for cut in 1..=13 {
            let stream = [&header(length)[..], &get].concat();
            in_pieces(script, W, [&stream[..cut], &stream[cut..]]);
        }
    }
    for last in [0x00, 0xF3] {
        let header = header_with_a_front(last);
        for zeros in [0, 5, 6, 7] {
            let stream = [&header[..], &vec![0; zeros], &get].concat();
            script.piece(W, 512, &stream);
            for cut in 1..=14 {
                in_pieces(script, W, [&stream[..cut], &stream[cut..]]);
            }
        }
    }
    // Data that looks like a packet, or like the front of one.
    for cut in 0..=get.len() {
        let outer = packet(0, 0, &get[..cut]);
        script.piece(W, 512, &[&outer[..], &get[cut..], &get].concat());
        script.piece(W, 512, &outer);
        script.piece(W, 512, &get[cut..]);
        flush(script, W);
    }
}

/// Fronts that are cut off or spoiled, with the front of another behind them.
pub fn near_fronts(script: &mut Script) {
    script.line(HOUSE);
    let get = packet(0, 0, b"STATget LED");
    for first in 0..=6 {
        for second in 0..=6 {
            let fronts = [&FRONT[..first], &FRONT[..second]].concat();
            for byte in [0x00, 0x03, 0x0B, b'S', b'Y', 0xFF] {
                script.piece(W, 512, &[&fronts[..], &[byte], &get].concat());
                if first == 6 || second == 6 {
                    flush(script, W);
                }
            }
            script.piece(W, 512, &fronts);
            script.piece(W, 512, &get);
            flush(script, W);
        }
        let mut without = FRONT.to_vec();
        without.remove(first.min(5));
        script.piece(W, 512, &[&without[..], &get].concat());
    }
    for count in (1..=20).chain([100, 1000]) {
        for byte in *b"\x03\x0B\x00S" {
            let noise = vec![byte; count];
            script.piece(W, 512, &noise);
            script.piece(W, 512, &[&noise[..], &get].concat());
        }
    }
    for byte in 0..=255 {
        script.piece(W, 512, &[byte]);
    }
    flush(script, W);
}
