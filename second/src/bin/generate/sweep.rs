//! The sweep: a fixed script that walks every small range of document 01, pieces cut anywhere, and
//! what document 02 asks for besides.

use crate::buffers;
use crate::envelopes;
use crate::make::{
    advert_of_000, close, frame, full_advert, hashes_behind, hex, packet, serial, zeros_before,
    Script, WriteWords, ADVERT_TEXTS,
};
use crate::unread;
use crate::wire;
use crate::words::{
    good_texts, names, BAD_ENDINGS, CHOICES, FLIPS, GOOD_ENDINGS, LEVELS, NO_CODES, NO_QUESTIONS,
    QUESTIONS, SHIFTS, STATE_CODES, STRANGERS, SWITCHES,
};

/// The links of [`HOUSE`].
pub const W: u64 = 1;
pub const K: u64 = 4;
pub const PANELS: usize = 5;

/// Panels 1 and 2 share a group, panel 3 has their numbers the other way round.
pub const HOUSE: &str = "box W 1 2 W 1 3 W 2 1 K 0 0 K 0 0";

/// More than the sweep has.
pub const MOST_ORDERS: usize = 100_000;

/// A part of the sweep: its title, and what writes it.
type Part = (&'static str, fn(&mut Script));

pub fn script() -> Vec<u8> {
    let mut script = Script::of_at_most(MOST_ORDERS);
    let parts: [Part; 41] = [
        ("before any box", before_any_box),
        ("boxes, good and bad", boxes),
        ("links and areas", links_and_areas),
        ("RS-232C: every code", serial_codes),
        ("RS-232C: 21h", input_config),
        ("RS-232C: 22h", input_select),
        ("RS-232C: 40h", white_balance_data),
        ("RS-232C: 61h and 6Eh", senses),
        ("RS-232C: the envelope", serial_envelope),
        ("RS-232C: wrong parts of it", envelopes::serials),
        ("RS-232C: every length", envelopes::serial_lengths),
        ("SDCP: every byte of the header", packet_header),
        ("SDCP: the lengths", packet_lengths),
        ("SDCP: wrong parts of the envelope", envelopes::packets),
        ("SDCP: every choice of wrong parts", envelopes::choices),
        ("SDCP: data lengths", envelopes::data_lengths),
        ("SDCP: the ways of addressing", addressing),
        ("VMC: every setting with every value", settings),
        ("VMC: one flip, three words", flips),
        ("VMC: numbers that are none", numbers),
        ("VMC: near misses of every word", near_misses),
        ("VMC: what stands behind the words", endings),
        ("VMC: status by broadcast", broadcast_questions),
        ("off the wire: links and areas", wire::links_and_areas),
        ("off the wire: every cut", wire::cuts),
        ("off the wire: every byte of the header", wire::headers),
        ("off the wire: the lengths", wire::lengths),
        (
            "off the wire: overlong headers",
            envelopes::overlong_headers,
        ),
        ("off the wire: fronts that are none", wire::near_fronts),
        ("the plain reader: every count", buffers::counts),
        ("the plain reader: full lists", buffers::full_lists),
        ("the plain reader: every end", buffers::ends),
        ("the plain reader: the lengths", buffers::lengths),
        (
            "the plain reader: beside receivers",
            buffers::beside_receivers,
        ),
        ("KJW: every place of the frame", frame_places),
        ("KJW: every setting with every value", frame_values),
        ("KJW: the remote control", remote_codes),
        ("adverts read", adverts_read),
        ("adverts written", adverts_written),
        ("the checksum test", sums),
        ("lines that are no orders", no_orders),
    ];
    for (title, part) in parts {
        script.comment(title);
        part(&mut script);
    }
    script.bytes
}

fn before_any_box(script: &mut Script) {
    for link in [0, 1, 8, 9] {
        script.show(link);
        script.rs232(link, 512, &serial(0x41, &[0x6E]));
        script.tcp(link, 512, &packet(0, 0, b"STATget LED"));
        script.kjw(link, 512, &frame(b'E', b"POWR", &[b'#'; 16]));
        script.tcp(link, 511, &[]);
        script.piece(link, 512, &packet(0, 0, b"STATget LED"));
        script.piece(link, 511, &packet(0, 0, b"STATget LED")[..20]);
    }
    let all = packet(255, 255, b"STATset LED ON");
    for length in 0..=all.len() {
        script.udp(&all[..length]);
    }
}

fn boxes(script: &mut Script) {
    for id in 0..=255 {
        for line in [format!("box W {id} 1"), format!("box W 1 {id}")] {
            script.line(line);
            script.show(1);
        }
    }
    for id in [0, 1, 2, 99, 100, 255] {
        script.line(format!("box K {id} 0"));
        script.line(format!("box K 0 {id}"));
        script.line(format!("box W 5 5 K {id} {id}"));
        script.show_all(2);
    }
    for count in 0..=17 {
        let w: String = (1..=count).map(|unit| format!(" W 1 {unit}")).collect();
        let k = " K 0 0".repeat(count);
        for line in [format!("box{w}"), format!("box{k}")] {
            script.line(line);
            script.show(1);
            script.show(count as u64);
            script.show(count as u64 + 1);
        }
    }
    // Every two places of eight share both IDs, one of them, or the two the other way round.
    for first in 0..8 {
        for other in first + 1..8 {
            for (group, unit) in [(70, 80), (70, 81), (71, 80), (80, 70)] {
                let mut line = "box".to_string();
                for place in 0..8 {
                    if place == first {
                        line.push_str(" W 70 80");
                    } else if place == other {
                        line.push_str(&format!(" W {group} {unit}"));
                    } else if place % 3 == 0 {
                        line.push_str(" K 0 0");
                    } else {
                        line.push_str(&format!(" W 1 {}", place + 1));
                    }
                }
                script.line(line);
                script.show(other as u64 + 1);
            }
        }
    }
}

fn links_and_areas(script: &mut Script) {
    script.line(HOUSE);
    let links = [
        0,
        1,
        2,
        3,
        4,
        5,
        6,
        7,
        8,
        9,
        15,
        16,
        255,
        256,
        257,
        260,
        65_536,
        65_537,
        4_294_967_295,
        4_294_967_296,
        4_294_967_297,
    ];
    let areas = [0, 1, 122, 255, 256, 510, 511, 512, 513, 1023, 1024, 1025];
    let set = packet(0, 0, b"STATset LED ON");
    let by_pair = packet(2, 1, b"STATset HVDELAY ON");
    let toggle = frame(b'C', b"TPOW", &[b'#'; 16]);
    let off = serial(0x41, &[0x22, 0x12]);
    for link in links {
        script.show(link);
        for area in [511, 512] {
            for bytes in [&[][..], &set, &by_pair, &toggle, &off] {
                script.rs232(link, area, bytes);
                script.kjw(link, area, bytes);
                script.tcp(link, area, bytes);
            }
        }
        script.show_all(PANELS);
    }
    script.line(HOUSE);
    for area in areas {
        for link in [W, K] {
            script.rs232(link, area, &serial(0x41, &[0x61, 1]));
            script.tcp(link, area, &packet(0, 0, b"STATget RGB RANGE"));
            script.kjw(link, area, &toggle);
            script.rs232(link, area, &off);
            script.tcp(link, area, &set);
            script.tcp(link, area, &packet(0, 0, b"STATset LED"));
            script.tcp(link, area, &set[..12]);
            script.tcp(link, area, &set[..14]);
        }
        script.show_all(PANELS);
        script.line(HOUSE);
    }
}

fn serial_codes(script: &mut Script) {
    for code in 0..=255 {
        script.line(HOUSE);
        for count in 0..=4 {
            let mut block = vec![code];
            block.extend(vec![0x12; count]);
            script.rs232(W, 512, &serial(0x41, &block));
        }
        script.show(W);
    }
}

fn input_config(script: &mut Script) {
    script.line(HOUSE);
    for marks in 0..=255 {
        script.rs232(W, 512, &serial(0x41, &[0x21, marks, 0x28]));
        script.show(W);
        script.rs232(W, 512, &serial(0x41, &[0x21, 0x03, 0x30]));
    }
    for marks in 0..=3 {
        for values in 0..=255 {
            script.rs232(W, 512, &serial(0x41, &[0x21, marks, values]));
            script.show(W);
        }
    }
    // The same with every other connector OFF.
    for code in [0, 4, 6, 8, 10] {
        script.rs232(W, 512, &serial(0x41, &[0x22, 0x10 | code]));
    }
    for values in 0..=255 {
        script.rs232(W, 512, &serial(0x41, &[0x21, 0x03, values]));
        script.show(W);
    }
    for count in 0..=4 {
        let block = [0x21, 0x03, 0x28, 0x28, 0x28];
        script.rs232(W, 512, &serial(0x41, &block[..=count]));
        script.show(W);
    }
}

fn input_select(script: &mut Script) {
    script.line(HOUSE);
    for value in 0..=255 {
        script.rs232(W, 512, &serial(0x41, &[0x22, value]));
        script.show(W);
    }
    script.line(HOUSE);
    for value in (0..=255).rev() {
        script.rs232(W, 512, &serial(0x41, &[0x22, value]));
        script.show(W);
    }
    // Each connector in its turn is the last that is ON, is told OFF, and is turned ON again.
    let codes = [0, 2, 4, 5, 6, 7, 8, 9, 10, 11];
    for last in codes {
        script.line(HOUSE);
        for code in codes {
            if code != last {
                script.rs232(W, 512, &serial(0x41, &[0x22, 0x10 | code]));
            }
        }
        for value in [0x10 | last, 0x10, 0x1B, 0x20 | last] {
            script.rs232(W, 512, &serial(0x41, &[0x22, value]));
            script.show(W);
        }
        let other = if last == 7 { 8 } else { 7 };
        for value in [0x20 | other, 0x10 | last, 0x10 | other] {
            script.rs232(W, 512, &serial(0x41, &[0x22, value]));
            script.show(W);
        }
    }
}

fn white_balance_data(script: &mut Script) {
    script.line(HOUSE);
    for mask in 0..=255u8 {
        let count = 2 * (mask & 0x3F).count_ones() as usize;
        let mut block = vec![0x40, mask];
        block.extend(
            (0..count as u8).map(|place| mask.wrapping_mul(7).wrapping_add(place.wrapping_mul(37))),
        );
        script.rs232(W, 512, &serial(0x41, &block));
        script.show(W);
        let mut fewer = block.clone();
        fewer.pop();
        script.rs232(W, 512, &serial(0x41, &fewer));
        block.push(mask);
        script.rs232(W, 512, &serial(0x41, &block));
        block.push(mask);
        script.rs232(W, 512, &serial(0x41, &block));
        script.show(W);
    }
    let edges: [u16; 22] = [
        0, 1, 255, 256, 511, 1022, 1023, 1024, 1025, 2046, 2047, 2048, 2049, 3071, 3072, 4094,
        4095, 4096, 4097, 32_767, 32_768, 65_535,
    ];
    for bit in 0..6 {
        for edge in edges {
            let [low, high] = edge.to_le_bytes();
            script.rs232(W, 512, &serial(0x41, &[0x40, 1 << bit, low, high]));
            script.show(W);
            script.rs232(W, 512, &serial(0x41, &[0x61, 1]));
            script.rs232(W, 512, &serial(0x41, &[0x61, 2]));
        }
    }
}

fn senses(script: &mut Script) {
    script.line(HOUSE);
    for which in 0..=255 {
        script.rs232(W, 512, &serial(0x41, &[0x61, which]));
    }
    for state in ["OFF", "ON"] {
        let set = format!("STATset REMOTE {state}");
        script.tcp(W, 512, &packet(0, 0, set.as_bytes()));
        script.rs232(W, 512, &serial(0x41, &[0x6E]));
        script.rs232(W, 512, &serial(0x41, &[0x22, 0x19]));
        script.rs232(W + 1, 512, &serial(0x7F, &[0x6E]));
        script.show_all(2);
    }
}

fn serial_envelope(script: &mut Script) {
    script.line(HOUSE);
    // A message that changes the panel, so that it is seen whether it was obeyed.
    for place in 0..7 {
        for byte in 0..=255 {
            let mut message = serial(0x41, &[0x22, 0x12]);
            if let Some(at) = message.get_mut(place) {
                *at = byte;
            }
            script.rs232(W, 512, &message);
            if place < 6 {
                close(&mut message);
                script.rs232(W, 512, &message);
            }
            if byte % 16 == 15 {
                script.show(W);
                script.rs232(W, 512, &serial(0x41, &[0x22, 0x30]));
            }
        }
    }
    let long = serial(0x41, &[0x40, 0x3F, 1, 2, 3, 4, 5, 6, 7, 8, 9, 10, 11, 12]);
    for length in 0..=long.len() {
        let mut message = long[..length].to_vec();
        script.rs232(W, 512, &message);
        close(&mut message);
        script.rs232(W, 512, &message);
    }
    script.show(W);
    for count in 0..=300usize {
        if !(20..=240).contains(&count) || count % 25 == 0 {
            script.rs232(W, 512, &serial(0x41, &vec![0x40; count]));
        }
    }
    // A whole turn of the byte count: it fits modulo 256 only.
    for block in [&[0x6E][..], &[0x22, 0x12], &[0x61, 1]] {
        let mut message = serial(0x41, block);
        message.extend(vec![0; 256]);
        close(&mut message);
        script.rs232(W, 512, &message);
    }
    script.show(W);
}

fn packet_header(script: &mut Script) {
    script.line(HOUSE);
    for place in 0..13 {
        for byte in 0..=255 {
            let mut message = packet(0, 0, b"STATset LED ON");
            message[place] = byte;
            script.tcp(W, 512, &message);
            let mut message = packet(1, 255, b"STATset MONOCHR ON");
            message[place] = byte;
            script.udp(&message);
            if byte % 8 == 7 {
                script.show_all(3);
                let off = packet(255, 255, b"STATset LED OFF");
                script.udp(&off);
                let off = packet(255, 255, b"STATset MONOCHR OFF");
                script.udp(&off);
            }
        }
    }
    // The orders of the checks: a packet with two faults has the answer of the first.
    let good = packet(0, 0, b"STATset LED ON");
    let faults: [fn(&mut Vec<u8>); 7] = [
        |message| message.truncate(12),
        |message| message[0] = 0x04,
        |message| message[7] = 0x63,
        |message| message[8] = 0x01,
        |message| message[10] = 0x01,
        |message| message[12] = 0x0D,
        |message| message[13] = b's',
    ];
    for first in faults {
        for second in faults {
            let mut message = good.clone();
            second(&mut message);
            if message.len() > 12 {
                first(&mut message);
            }
            script.tcp(W, 512, &message);
            script.tcp(W, 511, &message);
            script.tcp(K, 512, &message);
            script.udp(&message);
        }
    }
    script.show_all(PANELS);
}

fn packet_lengths(script: &mut Script) {
    script.line(HOUSE);
    let set = packet(0, 0, b"STATset VOLUME 55");
    let by_udp = packet(1, 255, b"STATset VOLUME 66");
    for length in 0..=set.len() {
        script.tcp(W, 512, &set[..length]);
        script.udp(&by_udp[..length]);
        // The same with a length that fits what is left.
        if length >= 13 {
            script.tcp(W, 512, &packet(0, 0, &set[13..length]));
            script.udp(&packet(1, 255, &by_udp[13..length]));
        }
        script.show(W);
    }
    for count in 0..=530 {
        if !(20..=490).contains(&count) || count % 40 == 0 {
            script.tcp(W, 512, &packet(0, 0, &vec![b'A'; count]));
            script.udp(&packet(255, 255, &vec![b'A'; count]));
        }
    }
    // Good words with so much behind them.
    for count in [17, 18, 255, 256, 273, 498, 499, 500, 501, 1011] {
        for filler in [b' ', 0x00, b'0'] {
            let mut data = b"STATset VOLUME 77".to_vec();
            data.resize(count, filler);
            script.tcp(W, 512, &packet(0, 0, &data));
            data.resize(count + 256, filler);
            data.truncate(1011);
            let mut message = packet(0, 0, &data);
            message[11..13].copy_from_slice(&(count as u16).to_be_bytes());
            script.tcp(W, 512, &message);
        }
    }
    script.show(W);
}

fn addressing(script: &mut Script) {
    // Panel 3 carries the others' group as its unit; panel 5 is at the upper end of both.
    script.line("box W 1 2 W 1 3 W 2 1 K 0 0 W 99 99 W 2 2");
    let mut volume = 0;
    let mut next = || {
        volume = (volume + 1) % 101;
        format!("STATset VOLUME {volume}").into_bytes()
    };
    for id in 0..=255 {
        for (group, unit) in [
            (id, 255),
            (255, id),
            (1, id),
            (id, 1),
            (id, 0),
            (0, id),
            (id, id),
        ] {
            script.udp(&packet(group, unit, &next()));
            script.tcp(W, 512, &packet(group, unit, &next()));
        }
        script.show_all(6);
    }
    for group in [0, 1, 2, 3, 98, 99, 100, 254, 255] {
        for unit in [0, 1, 2, 3, 98, 99, 100, 254, 255] {
            script.tcp(3, 512, &packet(group, unit, &next()));
            script.show_all(6);
            script.tcp(K, 512, &packet(group, unit, &next()));
            script.tcp(5, 512, &packet(group, unit, b"STATget VOLUME"));
            script.udp(&packet(group, unit, &next()));
            script.show_all(6);
        }
    }
    // A box without a W panel.
    script.line("box K 0 0 K 0 0");
    script.udp(&packet(255, 255, b"STATset LED ON"));
    script.udp(&packet(1, 255, b"STATset LED ON"));
    script.udp(&packet(0, 255, b"STATset LED ON"));
    script.tcp(1, 512, &packet(0, 0, b"STATset LED ON"));
    script.show_all(2);
}

fn settings(script: &mut Script) {
    script.line(HOUSE);
    let ask = |script: &mut Script, name: &str| {
        let get = format!("STATget {name}");
        script.tcp(W, 512, &packet(0, 0, get.as_bytes()));
    };
    let tell = |script: &mut Script, words: &str| {
        let set = format!("STATset {words}");
        script.tcp(W, 512, &packet(0, 0, set.as_bytes()));
    };
    for name in names() {
        ask(script, name);
    }
    for name in LEVELS {
        for level in 0..=110 {
            tell(script, &format!("{name} {level}"));
            ask(script, name);
        }
        for level in [0, 50, 100] {
            for form in ["+", "-", "0", "00"] {
                tell(script, &format!("{name} {form}{level}"));
                ask(script, name);
            }
        }
    }
    for name in SHIFTS {
        for shift in 0..=35 {
            for sign in ["", "+", "-", "0", "+0", "-0"] {
                tell(script, &format!("{name} {sign}{shift}"));
                ask(script, name);
            }
        }
    }
    script.show_all(PANELS);
    for choice in CHOICES.iter().chain(CHOICES.iter().rev()) {
        tell(script, choice);
        script.show(W);
        for name in ["MODE", "NTSC", "RGB RANGE"] {
            ask(script, name);
        }
    }
    for switch in SWITCHES.into_iter().chain(FLIPS) {
        for state in [
            "ON", "OFF", "ON", "on", "O", "OF", "OFFF", "1", "", "TOGGLE",
        ] {
            tell(script, &format!("{switch} {state}"));
            ask(script, switch);
            script.show(W);
        }
        tell(script, switch);
    }
    for (h, v) in [("5", "-7"), ("0", "30"), ("-30", "0"), ("0", "0")] {
        tell(script, &format!("SHIFTH {h}"));
        tell(script, &format!("SHIFTV {v}"));
        tell(script, "RESET");
        script.show(W);
    }
    for text in STRANGERS {
        script.tcp(W, 512, &packet(0, 0, text.as_bytes()));
        script.udp(&packet(255, 255, text.as_bytes()));
    }
    script.show_all(PANELS);
    // The same words by UDP, to a group and to all.
    script.line(HOUSE);
    for text in good_texts() {
        script.udp(&packet(1, 255, text.as_bytes()));
        script.show_all(3);
    }
    for text in good_texts() {
        script.udp(&packet(255, 255, text.as_bytes()));
        script.udp(&packet(2, 255, text.as_bytes()));
        script.show_all(3);
    }
}

/// Every flip word ON and OFF, from every flip: by TCP, by UDP, and off the wire.
fn flips(script: &mut Script) {
    let words = FLIPS.map(|flip| ["ON", "OFF"].map(|state| format!("STATset {flip} {state}")));
    let words = words.as_flattened();
    for before in [
        "",
        "STATset FLIPH ON",
        "STATset FLIPV ON",
        "STATset FLIPHV ON",
    ] {
        for text in words {
            let data = text.as_bytes();
            script.line(HOUSE);
            script.udp(&packet(255, 255, before.as_bytes()));
            script.tcp(W, 512, &packet(0, 0, data));
            script.tcp(W, 512, &packet(1, 3, data));
            script.piece(3, 512, &packet(0, 0, data));
            flips_asked(script);
            script.udp(&packet(255, 255, before.as_bytes()));
            script.udp(&packet(1, 255, data));
            flips_asked(script);
            script.udp(&packet(255, 255, data));
            flips_asked(script);
        }
    }
    // Any two behind each other, and any three, and what has no part in it between them.
    for first in words {
        for second in words {
            script.line(HOUSE);
            script.udp(&packet(1, 255, first.as_bytes()));
            script.tcp(W, 512, &packet(0, 0, b"STATset RESET"));
            script.tcp(W, 512, &packet(0, 0, b"STATset HVDELAY ON"));
            script.udp(&packet(1, 255, second.as_bytes()));
            script.show_all(3);
            for third in words {
                script.tcp(W, 512, &packet(0, 0, third.as_bytes()));
                script.show(W);
            }
        }
    }
    // A group with a flip of its own for each panel, told the same.
    for text in words {
        script.line(HOUSE);
        for (link, flip) in FLIPS.iter().enumerate() {
            let set = format!("STATset {flip} ON");
            script.tcp(link as u64 + 1, 512, &packet(0, 0, set.as_bytes()));
        }
        script.udp(&packet(255, 255, text.as_bytes()));
        flips_asked(script);
    }
}

/// Each flip word of each W panel, and its record.
fn flips_asked(script: &mut Script) {
    for link in 1..=3 {
        for flip in FLIPS {
            let get = format!("STATget {flip}");
            script.tcp(link, 512, &packet(0, 0, get.as_bytes()));
        }
        script.show(link);
    }
}

fn numbers(script: &mut Script) {
    script.line(HOUSE);
    let mut tell = |word: &[u8]| {
        for name in ["VOLUME", "SHIFTV"] {
            let mut data = format!("STATset {name} ").into_bytes();
            data.extend_from_slice(word);
            script.tcp(W, 512, &packet(0, 0, &data));
        }
    };
    tell(b"");
    for byte in 0..=255 {
        tell(&[byte]);
        tell(&[b'1', byte]);
        tell(&[byte, b'1']);
    }
    let two = b"+-0123459 /:a";
    for first in two {
        for second in two {
            tell(&[*first, *second]);
        }
    }
    let three = b"+-0139";
    for first in three {
        for second in three {
            for third in three {
                tell(&[*first, *second, *third]);
                if *third == b'0' {
                    tell(&[*first, *second, b'0', b'0']);
                }
            }
        }
    }
    for word in [
        "127",
        "128",
        "226",
        "255",
        "256",
        "257",
        "286",
        "356",
        "-128",
        "-129",
        "-226",
        "-256",
        "65535",
        "65536",
        "65566",
        "2147483647",
        "2147483648",
        "4294967295",
        "4294967296",
        "4294967326",
        "-4294967326",
        "18446744073709551615",
        "18446744073709551616",
        "18446744073709551646",
        "340282366920938463463374607431768211486",
    ] {
        tell(word.as_bytes());
    }
    tell(&[b'0'; 450]);
    tell(&[b'1'; 450]);
    script.show(W);
}

fn near_misses(script: &mut Script) {
    script.line(HOUSE);
    for text in good_texts() {
        let good = text.into_bytes();
        let mut misses: Vec<Vec<u8>> = Vec::new();
        for place in 0..good.len() {
            let mut fewer = good.clone();
            fewer.remove(place);
            misses.push(fewer);
            for change in [0x01, 0x20, 0x80] {
                let mut changed = good.clone();
                changed[place] ^= change;
                misses.push(changed);
            }
            let mut more = good.clone();
            more.insert(place, b' ');
            misses.push(more);
            if good[place] == b' ' {
                for other in *b"\t\0\n_" {
                    let mut changed = good.clone();
                    changed[place] = other;
                    misses.push(changed);
                }
            }
        }
        for end in [&b"\n"[..], b" ON", b"0", b"S"] {
            misses.push([&good[..], end].concat());
        }
        for miss in &misses {
            script.tcp(W, 512, &packet(0, 0, miss));
        }
        script.show(W);
    }
}

/// Every way of putting one to so many of these bytes behind each other.
fn strings(bytes: &[u8], most: usize) -> Vec<Vec<u8>> {
    let mut all: Vec<Vec<u8>> = Vec::new();
    let mut longest = vec![Vec::new()];
    for _ in 0..most {
        longest = longest
            .iter()
            .flat_map(|string| {
                bytes
                    .iter()
                    .map(move |byte| [&string[..], &[*byte]].concat())
            })
            .collect();
        all.extend(longest.clone());
    }
    all
}

fn endings(script: &mut Script) {
    // Every kind of words with every ending, each to a new box: by TCP, by UDP, and off the wire.
    for text in good_texts() {
        for ending in GOOD_ENDINGS.iter().chain(&BAD_ENDINGS) {
            let data = [text.as_bytes(), ending].concat();
            script.line(HOUSE);
            script.tcp(W, 512, &packet(0, 0, &data));
            script.show(W);
            script.udp(&packet(2, 255, &data));
            script.show(3);
            script.piece(2, 512, &packet(0, 0, &data));
        }
    }
    // Endings of one to three bytes, behind words and alone, and the same before words.
    script.line(HOUSE);
    for (number, string) in strings(b" \0\t\x010", 3).iter().enumerate() {
        let set = format!("STATset SHIFTH -{}", 1 + number % 30).into_bytes();
        for words in [&set[..], b"STATget SHIFTH", b"STATset SHIFTH -"] {
            script.tcp(W, 512, &packet(0, 0, &[words, string].concat()));
        }
        script.tcp(W, 512, &packet(0, 0, &[&string[..], &set].concat()));
        script.tcp(W, 512, &packet(0, 0, string));
        script.udp(&packet(255, 255, string));
    }
    script.show_all(PANELS);
    // One word, or the front of a longer name, with nothing but an ending behind it.
    for words in [
        "STATset",
        "STATget",
        "STATsetX",
        "STAT",
        "STATset VOLUME",
        "STATset RGB RANGE",
        "STATget RGB",
        "STATset CAMERA FOCUS",
        "STATset ON",
        "ON",
    ] {
        script.tcp(W, 512, &packet(0, 0, words.as_bytes()));
        for ending in GOOD_ENDINGS.iter().chain(&BAD_ENDINGS) {
            let data = [words.as_bytes(), ending].concat();
            script.tcp(W, 512, &packet(0, 0, &data));
            script.udp(&packet(255, 255, &data));
        }
    }
    // So many spaces, and so many 00h, up to the longest data; and spaces with a 00h behind them.
    for count in [20, 100, 255, 256, 257, 498, 499, 500, 501] {
        let set = format!("STATset VOLUME {}", count % 100);
        for words in ["", &set, "STATget VOLUME", "STATset"] {
            for (filler, last) in [(b' ', b' '), (b' ', 0x00), (0x00, 0x00), (0x00, b' ')] {
                let mut data = words.as_bytes().to_vec();
                data.resize(count - 1, filler);
                data.push(last);
                script.tcp(W, 512, &packet(0, 0, &data));
            }
        }
        script.show(W);
    }
    // The data length is of the data as sent: here it leaves the ending out, counts a part of it, or
    // counts one that is not there.
    for ending in GOOD_ENDINGS {
        let bare = packet(0, 0, b"STATset VOLUME 8");
        let ended = packet(0, 0, &[b"STATset VOLUME 9", ending].concat());
        for length in bare.len() - 13..=ended.len() - 12 {
            for message in [&bare, &ended] {
                let mut message = message.clone();
                message[12] = length as u8;
                script.tcp(W, 512, &message);
                message[6..8].copy_from_slice(&[255, 255]);
                script.udp(&message);
            }
        }
    }
    script.show_all(PANELS);
}

/// STATget by UDP with every kind of tail, and what is nearly STATget; by TCP beside it.
fn broadcast_questions(script: &mut Script) {
    script.line(HOUSE);
    let mut texts: Vec<Vec<u8>> = Vec::new();
    texts.extend(
        names()
            .iter()
            .map(|name| format!("STATget {name}").into_bytes()),
    );
    texts.extend(QUESTIONS.iter().map(|text| text.as_bytes().to_vec()));
    texts.extend(NO_QUESTIONS.iter().map(|text| text.as_bytes().to_vec()));
    for text in &texts {
        let bare: &[u8] = b"";
        for ending in [bare].iter().chain(&GOOD_ENDINGS).chain(&BAD_ENDINGS) {
            let data = [&text[..], ending].concat();
            script.udp(&packet(1, 255, &data));
            script.udp(&packet(255, 255, &data));
            script.tcp(W, 512, &packet(0, 0, &data));
        }
        // A fault of an earlier number, and nobody called.
        let asked = packet(1, 255, text);
        for (place, byte) in [(0, 4), (6, 3), (7, 2), (8, 1), (10, 1), (11, 2), (12, 99)] {
            let mut message = asked.clone();
            message[place] = byte;
            script.udp(&message);
        }
        script.udp(&asked[..12]);
    }
    script.show_all(PANELS);
    // Every byte behind STATget, in its place, and behind the space.
    for byte in 0..=255 {
        for (front, back) in [
            (&b"STATget"[..], &b""[..]),
            (b"STATget", b"VOLUME"),
            (b"STATget ", b""),
            (b"STATge", b" VOLUME"),
            (b"", b"STATget VOLUME"),
        ] {
            let data = [front, &[byte], back].concat();
            script.udp(&packet(255, 255, &data));
        }
    }
    // So much behind it, up to the longest data and beyond.
    for count in [8, 20, 255, 256, 498, 499, 500, 501] {
        for filler in [b' ', b'A', 0x00] {
            for text in [&b"STATget"[..], b"STATget VOLUME", b"STATget\0"] {
                let mut data = text.to_vec();
                data.resize(count.max(text.len()), filler);
                script.udp(&packet(255, 255, &data));
                data.pop();
                data.push(0x00);
                script.udp(&packet(255, 255, &data));
            }
        }
    }
    // No W panel, no panel.
    for line in ["box K 0 0 K 0 0", "box"] {
        script.line(line);
        for group in [0, 1, 255] {
            script.udp(&packet(group, 255, b"STATget VOLUME"));
            script.udp(&packet(group, 255, b"STATget"));
        }
    }
}

fn frame_places(script: &mut Script) {
    let frames = [
        frame(b'C', b"POWR", &zeros_before("1")),
        frame(b'C', b"VOLU", &zeros_before("57")),
        frame(b'C', b"INPT", b"0000000300000012"),
        frame(b'C', b"SCEN", &hashes_behind("auto24pSync")),
        frame(b'C', b"TPMU", &[b'#'; 16]),
        frame(b'E', b"VOLU", &[b'#'; 16]),
        frame(b'C', b"IRCC", &zeros_before("30")),
    ];
    let classes = [
        0x00, 0x09, 0x0A, b' ', b'#', b'*', b'/', b'0', b'1', b'2', b'3', b'9', b':', b'A', b'C',
        b'E', b'F', b'S', b'a', 0x80, 0xB0, 0xFF,
    ];
    script.line(HOUSE);
    for good in &frames {
        for place in 0..24 {
            for byte in classes {
                let mut message = good.clone();
                message[place] = byte;
                script.kjw(K, 512, &message);
            }
            script.show(K);
            script.kjw(K, 512, &frame(b'C', b"POWR", &zeros_before("0")));
            script.kjw(K, 512, &frame(b'C', b"VOLU", &zeros_before("3")));
        }
    }
    for place in [0, 1, 2, 23] {
        for byte in 0..=255 {
            let mut message = frames[1].clone();
            message[place] = byte;
            script.kjw(K, 512, &message);
        }
        script.show_all(PANELS);
    }
    for length in 0..=60 {
        let mut message = frames[4].repeat(3);
        message.truncate(length);
        script.kjw(K, 512, &message);
    }
    script.show_all(PANELS);
}

fn frame_values(script: &mut Script) {
    script.line(HOUSE);
    let asked = [b'#'; 16];
    let letters: [&[u8; 4]; 16] = [
        b"POWR", b"AMUT", b"PMUT", b"VOLU", b"INPT", b"SCEN", b"TPOW", b"TPMU", b"IRCC", b"BADR",
        b"MADR", b"powr", b"POWE", b"RWOP", b"TAMU", b"    ",
    ];
    let parameters = [
        asked.to_vec(),
        zeros_before("0"),
        zeros_before("1"),
        zeros_before("2"),
        zeros_before("10"),
        b"1000000000000000".to_vec(),
        b"0000000100000001".to_vec(),
        b"0000000100000002".to_vec(),
        hashes_behind("auto"),
        hashes_behind("general"),
        b"FFFFFFFFFFFFFFFF".to_vec(),
        b"###############0".to_vec(),
    ];
    for four in letters {
        for sixteen in &parameters {
            for kind in [b'C', b'E', b'C'] {
                script.kjw(K, 512, &frame(kind, four, sixteen));
            }
            script.show(K);
        }
    }
    script.show_all(PANELS);
    for four in [b"POWR", b"AMUT", b"PMUT"] {
        for flag in ["0", "0", "1", "1", "0", "2", "00000000000000"] {
            script.kjw(K, 512, &frame(b'C', four, &zeros_before(flag)));
            script.kjw(K, 512, &frame(b'E', four, &asked));
            script.show(K);
        }
    }
    for (toggle, four) in [(b"TPOW", b"POWR"), (b"TPMU", b"PMUT")] {
        for _ in 0..3 {
            script.kjw(K, 512, &frame(b'C', toggle, &asked));
            script.kjw(K, 512, &frame(b'E', four, &asked));
            script.kjw(K + 1, 512, &frame(b'E', four, &asked));
        }
    }
    let large: [u64; 12] = [
        127,
        128,
        200,
        255,
        256,
        356,
        65_536,
        65_636,
        4_294_967_296,
        4_294_967_396,
        1_000_000_000_000_100,
        9_999_999_999_999_999,
    ];
    for volume in (0..=110).chain(large) {
        let set = frame(b'C', b"VOLU", &zeros_before(&volume.to_string()));
        script.kjw(K, 512, &set);
        script.kjw(K, 512, &set);
        script.kjw(K, 512, &frame(b'E', b"VOLU", &asked));
    }
    let ports = (0..=20)
        .chain((21..9999).step_by(411))
        .chain([99, 100, 999, 1000, 9998, 9999]);
    for port in ports {
        for kind in ["1", "3", "4", "5"] {
            let value = format!("0000000{kind}0000{port:04}");
            script.kjw(K, 512, &frame(b'C', b"INPT", value.as_bytes()));
            script.kjw(K, 512, &frame(b'C', b"INPT", value.as_bytes()));
        }
        script.kjw(K, 512, &frame(b'E', b"INPT", &asked));
        script.show(K);
    }
    for kind in 0..=255 {
        let mut value = b"0000000100000042".to_vec();
        value[7] = kind;
        script.kjw(K, 512, &frame(b'C', b"INPT", &value));
    }
    script.show(K);
    for scene in [
        "auto",
        "auto",
        "auto24pSync",
        "general",
        "general",
        "auto",
        "",
        "Auto",
        "AUTO",
        "aut",
        "autos",
        "auto24p",
        "auto24psync",
        "auto24pSyn",
        "auto24pSyncs",
        "genera",
        "generals",
        "General",
        "#auto",
        "auto0",
    ] {
        script.kjw(K, 512, &frame(b'C', b"SCEN", &hashes_behind(scene)));
        script.kjw(K, 512, &frame(b'E', b"SCEN", &asked));
        script.show(K);
        let zeros = format!("{scene:0<16}");
        script.kjw(K, 512, &frame(b'C', b"SCEN", zeros.as_bytes()));
    }
    script.show_all(PANELS);
}

/// A button of the remote control of panel K.
fn press(script: &mut Script, code: u64) {
    let parameters = zeros_before(&code.to_string());
    script.kjw(K, 512, &frame(b'C', b"IRCC", &parameters));
}

fn remote_codes(script: &mut Script) {
    let asked = [b'#'; 16];
    let set = |script: &mut Script, four: &[u8; 4], value: &str| {
        script.kjw(K, 512, &frame(b'C', four, &zeros_before(value)));
    };
    // Every number that a code could be, twice, and asked for; from the start and from elsewhere.
    for volume in ["", "1", "50", "99", "100"] {
        script.line(HOUSE);
        if !volume.is_empty() {
            for four in [b"POWR", b"AMUT", b"PMUT"] {
                set(script, four, "1");
            }
            set(script, b"INPT", "300000003");
            script.kjw(K, 512, &frame(b'C', b"SCEN", &hashes_behind("auto")));
        }
        for code in 0..=140 {
            if STATE_CODES.contains(&code) && !volume.is_empty() {
                set(script, b"VOLU", volume);
            }
            press(script, code);
            script.show(K);
            press(script, code);
            let parameters = zeros_before(&code.to_string());
            script.kjw(K, 512, &frame(b'E', b"IRCC", &parameters));
            script.show(K);
        }
        script.show_all(PANELS);
    }
    // From one end of the volume to the other and on, and back.
    script.line(HOUSE);
    for code in [31, 30, 31] {
        for _ in 0..103 {
            press(script, code);
        }
        script.kjw(K, 512, &frame(b'E', b"VOLU", &asked));
        script.show(K);
    }
    // From every type, and from the ports round the four.
    for kind in ["1", "3", "4", "5"] {
        for port in [1, 2, 3, 4, 5, 9999] {
            for code in 123..=128 {
                set(script, b"INPT", &format!("{kind}0000{port:04}"));
                press(script, code);
                press(script, code);
                script.kjw(K, 512, &frame(b'E', b"INPT", &asked));
                script.show(K);
            }
        }
    }
    // The mutes and the power, with the controls that have them too.
    for (code, four) in [(32, b"AMUT"), (50, b"PMUT"), (98, b"POWR")] {
        for value in ["0", "1"] {
            set(script, four, value);
            press(script, code);
            set(script, four, value);
            press(script, code);
            press(script, code);
            script.kjw(K, 512, &frame(b'E', four, &asked));
            script.show(K);
        }
    }
    // All sixteen digits count.
    for code in STATE_CODES.into_iter().chain([5, 28, 130]) {
        for larger in [100, 128, 200, 256, 1000, 65_536, 4_294_967_296] {
            press(script, code + larger);
        }
        for place in 0..14 {
            press(script, code + 10_u64.pow(15 - place));
        }
        for place in 1..14 {
            press(script, code * 10_u64.pow(place));
        }
        for digits in [format!("{code:X}"), format!("{code:x}"), format!("#{code}")] {
            script.kjw(K, 512, &frame(b'C', b"IRCC", &zeros_before(&digits)));
        }
        script.show(K);
    }
    for sixteen in NO_CODES {
        for kind in [b'C', b'E'] {
            script.kjw(K, 512, &frame(kind, b"IRCC", sixteen.as_bytes()));
        }
    }
    for place in [0, 13, 14, 15] {
        for byte in 0..=255 {
            let mut sixteen = zeros_before("31");
            sixteen[place] = byte;
            script.kjw(K, 512, &frame(b'C', b"IRCC", &sixteen));
        }
    }
    script.show(K);
    // Other letters, a small area, other links.
    let button = zeros_before("98");
    for four in [b"ircc", b"IRCD", b"IRC ", b"CCRI", b"TRCC"] {
        script.kjw(K, 512, &frame(b'C', four, &button));
    }
    for (link, area) in [(K, 511), (K, 1024), (K + 1, 512), (W, 512), (6, 512)] {
        script.kjw(link, area, &frame(b'C', b"IRCC", &button));
    }
    script.show_all(PANELS);
}

fn adverts_read(script: &mut Script) {
    let mut read = |bytes: &[u8]| script.line(format!("advert {}", hex(bytes)));
    for good in [advert_of_000(), full_advert()] {
        read(&good);
        for length in 0..=130 {
            let mut bytes = good.clone();
            bytes.resize(length, 0);
            read(&bytes);
        }
        for place in 0..122 {
            for byte in [0x00, 0x01, 0x02, 0x0B, 0x0C, 0x0D, 0x41, 0xFF] {
                let mut bytes = good.clone();
                bytes[place] = byte;
                read(&bytes);
            }
        }
    }
    // Every byte of the fixed part, the category, and the two flags.
    for place in (0..8).chain([24, 25, 70, 71]) {
        for byte in 0..=255 {
            let mut bytes = full_advert();
            bytes[place] = byte;
            read(&bytes);
        }
    }
    for power in [[0, 0], [0, 1], [1, 0], [1, 1], [0, 2]] {
        for error in [[0, 0], [0, 1], [1, 0], [1, 1], [0, 2]] {
            let mut bytes = full_advert();
            bytes[24..26].copy_from_slice(&power);
            bytes[70..72].copy_from_slice(&error);
            read(&bytes);
        }
    }
    // A text that ends at every place, with a letter at every place behind its end.
    for (start, length) in ADVERT_TEXTS {
        for end in 0..length {
            let mut bytes = full_advert();
            bytes[start + end..start + length].fill(0);
            read(&bytes);
            for letter in end + 1..length {
                if letter < end + 3 || letter == length - 1 {
                    let mut bytes = bytes.clone();
                    bytes[start + letter] = b'x';
                    read(&bytes);
                }
            }
        }
    }
    // Two faults: the lower number is given.
    for place in 0..8 {
        let mut bytes = full_advert();
        bytes[place] ^= 0x40;
        bytes[25] = 2;
        read(&bytes);
        bytes.pop();
        read(&bytes);
    }
}

fn adverts_written(script: &mut Script) {
    let good = WriteWords::good();
    let mut write = |change: &dyn Fn(&mut WriteWords)| {
        let mut wanted = good.clone();
        change(&mut wanted);
        script.line(wanted.line());
    };
    write(&|_| {});
    for area in [
        0, 1, 12, 119, 120, 121, 122, 123, 124, 511, 512, 1023, 1024, 1025,
    ] {
        write(&|wanted| wanted.area = area.to_string());
        write(&|wanted| {
            wanted.area = area.to_string();
            wanted.category = "1".to_string();
        });
        write(&|wanted| {
            wanted.area = area.to_string();
            wanted.product = Vec::new();
        });
    }
    for number in 0..=257 {
        write(&|wanted| wanted.category = number.to_string());
        write(&|wanted| wanted.group = number.to_string());
        write(&|wanted| wanted.unit = number.to_string());
    }
    for number in [
        0, 1, 2, 3, 255, 256, 257, 32_768, 65_534, 65_535, 65_536, 65_537,
    ] {
        write(&|wanted| wanted.power = number.to_string());
        write(&|wanted| wanted.error = number.to_string());
    }
    for length in 0..=50 {
        write(&|wanted| wanted.product.resize(length, 0));
        write(&|wanted| wanted.location.resize(length, 0));
        write(&|wanted| wanted.region.resize(length, 0));
        write(&|wanted| wanted.name.resize(length, 0));
        write(&|wanted| {
            wanted.name.resize(length, 0);
            wanted.category = "13".to_string();
            wanted.power = "2".to_string();
        });
    }
    for end in 0..24 {
        for letter in [end + 1, end + 2, 23] {
            let text = |length: usize| {
                let mut text = vec![b'T'; length];
                text[end.min(length - 1)..].fill(0);
                if let Some(at) = text.get_mut(letter) {
                    *at = b'x';
                }
                text
            };
            write(&|wanted| wanted.product = text(12));
            write(&|wanted| wanted.location = text(24));
            write(&|wanted| wanted.region = text(24));
            write(&|wanted| wanted.name = text(24));
            write(&|wanted| {
                wanted.name = text(24);
                wanted.category = "10".to_string();
            });
        }
    }
    for number in [
        "0",
        "1",
        "256",
        "65536",
        "16777216",
        "4294967295",
        "4294967296",
    ] {
        write(&|wanted| wanted.serial = number.to_string());
        for place in 0..5 {
            write(&|wanted| wanted.addresses[place] = number.to_string());
        }
    }
}

fn sums(script: &mut Script) {
    let mut sum = |bytes: &[u8]| script.line(format!("sum {}", hex(bytes)));
    sum(&[]);
    for byte in 0..=255u8 {
        sum(&[byte]);
        sum(&[byte, byte.wrapping_neg()]);
        sum(&[byte, 0xFF]);
    }
    for count in (1..=1024)
        .step_by(31)
        .chain([255, 256, 257, 512, 1023, 1024])
    {
        sum(&vec![0x80; count]);
        sum(&vec![0xFF; count]);
        sum(&vec![0x01; count]);
        let mut last = vec![0; count];
        last[count - 1] = 1;
        sum(&last);
    }
    script.line("sum ff01");
    script.line("sum fF01");
    script.line("sum Ab55");
}

fn no_orders(script: &mut Script) {
    script.line(HOUSE);
    for line in unread::lines() {
        script.line(line);
    }
    for line in unread::bad_write_lines() {
        script.line(line);
    }
    for byte in 0..=255 {
        if byte != b'\n' {
            script.line([b's', b'h', b'o', b'w', byte, b'1']);
            script.line([b's', b'h', b'o', b'w', b' ', byte]);
            script.line([b's', b'u', b'm', b' ', b'0', byte]);
            if byte != b'#' {
                script.line([byte]);
            }
        }
    }
    script.passed_over(vec![b'#'; 4096]);
    script.passed_over(vec![b'#'; 4097]);
    script.passed_over(vec![b'#'; 100_000]);
    script.passed_over(b"#\xFF\0\t\r");
    script.passed_over(b"");
    script.show_all(PANELS + 1);
    // The last line lacks its end.
    script.line("show 1");
    script.bytes.pop();
}
