//! Random scripts: a console, a house full of panels, and a bad night.

use crate::buffers;
use crate::make::{
    advert_of_000, close, frame, full_advert, hashes_behind, hex, packet, padded, serial,
    zeros_before, Script, WriteWords, ADVERT_TEXTS,
};
use crate::rng::Rng;
use crate::unread;
use crate::wire;
use crate::words;

/// A panel as the generator remembers it.
#[derive(Clone, Copy, PartialEq)]
struct Panel {
    family: char,
    group: u8,
    unit: u8,
}

/// The light model: what panels the box has, if it took the last `box`, and what waits on the wires
/// of links 1 to 8.
struct Console {
    rng: Rng,
    panels: Vec<Panel>,
    wires: [Vec<u8>; 8],
    /// Chance for the pieces alone, and for `plain` alone: so a seed gives all other orders as it
    /// would without them.
    rng_of_wires: Rng,
    rng_of_buffers: Rng,
    script: Script,
    no_orders: Vec<Vec<u8>>,
    bad_writes: Vec<String>,
}

/// A script of this many orders (lines that are answered).
pub fn script(seed: u64, orders: usize) -> Vec<u8> {
    let mut console = Console {
        rng: Rng::new(seed),
        panels: Vec::new(),
        wires: Default::default(),
        rng_of_wires: Rng::new(!seed),
        rng_of_buffers: Rng::new(seed.rotate_left(32) ^ 7),
        script: Script::of_at_most(orders),
        no_orders: unread::lines(),
        bad_writes: unread::bad_write_lines(),
    };
    console
        .script
        .comment(&format!("seed {seed}, {orders} orders"));
    while console.script.orders < orders {
        console.next();
    }
    console.script.bytes
}

/// IDs that meet each other, as groups and as units.
const IDS: [u8; 8] = [1, 2, 3, 7, 11, 50, 98, 99];

/// Bytes for the group and unit places of a packet.
const ODD_IDS: [u8; 10] = [0, 1, 2, 3, 99, 100, 101, 127, 254, 255];

/// The listed connectors, some of them twice, and some that are not listed.
const CONNECTORS: [u8; 20] = [
    0, 2, 4, 5, 6, 7, 8, 9, 10, 11, 0, 2, 4, 9, 10, 11, 1, 3, 12, 15,
];

impl Console {
    fn next(&mut self) {
        if self.rng_of_wires.below(100) < 7 {
            std::mem::swap(&mut self.rng, &mut self.rng_of_wires);
            self.pieces();
            std::mem::swap(&mut self.rng, &mut self.rng_of_wires);
        }
        if self.rng_of_buffers.below(100) < 7 {
            let buffer = buffers::buffer(&mut self.rng_of_buffers);
            self.script.plain(&buffer);
        }
        if self.panels.is_empty() && !self.rng.once_in(5) || self.rng.once_in(50) {
            return self.new_box();
        }
        match self.rng.below(100) {
            0..=23 => self.rs232(),
            24..=51 => self.tcp(),
            52..=64 => self.udp(),
            65..=82 => self.kjw(),
            83..=86 => self.show(),
            87..=90 => self.advert(),
            91..=93 => self.write(),
            94..=95 => self.sum(),
            96..=98 => self.no_order(),
            _ => self.passed_over(),
        }
    }

    fn new_box(&mut self) {
        let count = 1 + self.rng.below(8);
        let mut panels: Vec<Panel> = Vec::new();
        while panels.len() < count {
            let panel = if self.rng.once_in(4) {
                Panel {
                    family: 'K',
                    group: 0,
                    unit: 0,
                }
            } else {
                Panel {
                    family: 'W',
                    group: self.rng.pick(&IDS[..5]),
                    unit: self.rng.pick(&IDS),
                }
            };
            if panel.family == 'K' || !panels.contains(&panel) {
                panels.push(panel);
            }
        }
        // Mostly a box has panels of both families.
        if count > 1 && !self.rng.once_in(4) {
            panels[0] = Panel {
                family: 'W',
                group: 1,
                unit: 77,
            };
            panels[1 + self.rng.below(count - 1)] = Panel {
                family: 'K',
                group: 0,
                unit: 0,
            };
        }
        let good = !self.rng.once_in(5);
        if !good {
            self.spoil_box(&mut panels);
        }
        let mut line = "box".to_string();
        for panel in &panels {
            line.push_str(&format!(" {} {} {}", panel.family, panel.group, panel.unit));
        }
        self.script.line(line);
        self.panels = if good { panels } else { Vec::new() };
        if self.rng.once_in(2) {
            self.show_all();
        }
    }

    /// Breaks one rule of the first section.
    fn spoil_box(&mut self, panels: &mut Vec<Panel>) {
        let place = self.rng.below(panels.len());
        let stranger = Panel {
            family: 'W',
            group: 42,
            unit: 42,
        };
        match self.rng.below(7) {
            0 => panels.clear(),
            1 => {
                let count = 9 + self.rng.below(8);
                while panels.len() < count {
                    let unit = panels.len() as u8 + 1;
                    panels.push(Panel { unit, ..stranger });
                }
            }
            2 => {
                let unit = self.rng.pick(&[0, 100, 101, 255]);
                panels[place] = Panel { unit, ..stranger };
            }
            3 => {
                let group = self.rng.pick(&[0, 100, 101, 255]);
                panels[place] = Panel { group, ..stranger };
            }
            4 => {
                panels.truncate(6);
                panels.insert(0, stranger);
                panels.push(stranger);
            }
            5 => {
                panels[place] = Panel {
                    family: 'K',
                    group: self.rng.pick(&IDS),
                    unit: self.rng.pick(&[0, 1]),
                }
            }
            _ => {
                panels[place] = Panel {
                    family: 'K',
                    group: self.rng.pick(&[0, 1]),
                    unit: self.rng.pick(&IDS),
                }
            }
        }
    }

    /// A link, mostly of a panel of this family.
    fn link(&mut self, family: char) -> u64 {
        let fitting: Vec<usize> = (0..self.panels.len())
            .filter(|place| self.panels[*place].family == family)
            .collect();
        match self.rng.below(20) {
            0 => self.rng.below(10) as u64,
            1 => self
                .rng
                .pick(&[0, 9, 16, 255, 256, 257, 65537, 4_294_967_295]),
            _ if fitting.is_empty() => 1 + self.rng.below(8) as u64,
            _ => self.rng.pick(&fitting) as u64 + 1,
        }
    }

    fn area(&mut self) -> usize {
        match self.rng.below(12) {
            0 => self.rng.pick(&[0, 1, 255, 256, 510, 511]),
            1 => self.rng.pick(&[513, 600, 768, 1023, 1024]),
            _ => 512,
        }
    }

    /// Sometimes the panel of a message, sometimes every panel.
    fn look(&mut self, link: u64) {
        match self.rng.below(12) {
            0 => self.show_all(),
            1..=4 => self.script.show(link),
            _ => {}
        }
    }

    fn show_all(&mut self) {
        self.script.show_all(self.panels.len());
    }

    fn show(&mut self) {
        if self.rng.once_in(2) {
            return self.show_all();
        }
        let link = self.link('W');
        self.script.show(link);
    }

    /// Turns the connectors of a panel OFF one by one, in some order, down to the last and beyond.
    fn connectors_off(&mut self) {
        let link = self.link('W');
        let mut codes = vec![0, 2, 4, 5, 6, 7, 8, 9, 10, 11];
        while !codes.is_empty() {
            let code = codes.remove(self.rng.below(codes.len()));
            self.script
                .rs232(link, 512, &serial(0x41, &[0x22, 0x10 | code]));
        }
        self.script.show(link);
        for _ in 0..self.rng.below(6) {
            let value = self.rng.pick(&[0x10, 0x20]) | self.rng.pick(&CONNECTORS);
            self.script.rs232(link, 512, &serial(0x41, &[0x22, value]));
            self.script.show(link);
        }
    }

    fn rs232(&mut self) {
        if self.rng.once_in(60) {
            return self.connectors_off();
        }
        let link = self.link('W');
        let area = self.area();
        let mut message = self.serial_message();
        if self.rng.once_in(7) {
            self.spoil_serial(&mut message);
        }
        self.script.rs232(link, area, &message);
        self.look(link);
    }

    fn serial_message(&mut self) -> Vec<u8> {
        let rng = &mut self.rng;
        let mut block = match rng.below(20) {
            0..=4 => {
                let marks = rng.pick(&[0, 1, 2, 3, 3, 3]) | rng.byte() & rng.pick(&[0x00, 0xFC]);
                let values = rng.pick(&CONNECTORS)
                    | rng.pick(&[0x00, 0x20, 0x30, 0x20, 0x30, 0x10, 0x40])
                    | rng.byte() & rng.pick(&[0x00, 0x00, 0x80, 0xFF]);
                vec![0x21, marks, values]
            }
            5..=9 => {
                let act = rng.pick(&[0x10, 0x10, 0x10, 0x20, 0x30, 0x00]);
                let rest = rng.pick(&CONNECTORS) | rng.byte() & rng.pick(&[0x00, 0xC0]);
                let act = if act == 0x30 && !rng.once_in(4) {
                    0x10
                } else {
                    act
                };
                vec![0x22, act | rest]
            }
            10..=14 => {
                let mask = rng.byte() & rng.pick(&[0x3F, 0x3F, 0xFF]);
                let mut block = vec![0x40, mask];
                for _ in 0..(mask & 0x3F).count_ones() {
                    let edge: u16 = rng.pick(&[
                        0, 1, 255, 256, 1022, 1023, 1024, 1025, 2046, 2047, 2048, 4094, 4095, 4096,
                        32767, 32768, 65535,
                    ]);
                    let value = if rng.once_in(2) {
                        edge
                    } else {
                        rng.number() as u16
                    };
                    block.extend_from_slice(&value.to_le_bytes());
                }
                block
            }
            15..=16 => vec![
                0x61,
                rng.pick(&[1, 1, 1, 2, 2, 2, 0, 3, 4, 0x81, 0x82, 0xFF]),
            ],
            17..=18 => vec![0x6E],
            _ => {
                let count = rng.below(6);
                let mut block = vec![rng.byte()];
                block.extend(rng.bytes(count));
                block
            }
        };
        if rng.once_in(10) {
            if rng.once_in(2) {
                block.push(rng.byte());
            } else if block.len() > 1 {
                block.pop();
            }
        }
        let source = match rng.below(4) {
            0 => 0x41 + rng.below(63) as u8,
            1 => rng.pick(&[0x42, 0x7E, 0x7F]),
            _ => 0x41,
        };
        serial(source, &block)
    }

    fn spoil_serial(&mut self, message: &mut Vec<u8>) {
        let rng = &mut self.rng;
        let last = message.len() - 1;
        match rng.below(14) {
            0 => message[0] = rng.pick(&[0x00, 0x01, 0x03, 0x82, 0xFF]),
            1 => {
                message[2] = rng.pick(&[0x00, 0x02, 0x41, 0x81, 0xFF]);
                close(message);
            }
            2 => {
                message[3] = rng.pick(&[0x00, 0x01, 0x40, 0x80, 0xC1, 0xFF]);
                close(message);
            }
            3 => {
                message[1] = message[1].wrapping_add(rng.pick(&[1, 255, 2, 3, 128]));
                // A wrong count is told before the checksum, be that right or wrong (§8).
                if !rng.once_in(3) {
                    close(message);
                }
            }
            4 => {
                message[1] = rng.pick(&[0, 1, 2, 3, 255]);
                close(message);
            }
            5 => message[last] = message[last].wrapping_add(1),
            6 => message[last] ^= 1 << rng.below(8),
            7 => {
                let place = rng.below(message.len());
                message[place] ^= 1 << rng.below(8);
            }
            8 => message.truncate(rng.below(message.len())),
            9 => {
                message.truncate(rng.below(message.len()));
                close(message);
            }
            10 => message.push(rng.byte()),
            11 => {
                // A whole turn of the byte count: it fits modulo 256 only.
                message.extend(vec![0; 256]);
                close(message);
            }
            12 => {
                let count = rng.pick(&[240, 250, 251, 252, 253, 254, 255, 300, 700]);
                let mut block = vec![rng.pick(&[0x40, 0x21, 0x6E])];
                block.extend(rng.bytes(count));
                *message = serial(0x41, &block);
            }
            _ => {
                let count = rng.below(20);
                *message = rng.bytes(count);
            }
        }
    }

    /// A group and a unit for a packet by TCP.
    fn pair_for_tcp(&mut self) -> (u8, u8) {
        let some = self.some_w_panel();
        match self.rng.below(20) {
            0..=11 => (0, 0),
            12..=14 => (some.group, some.unit),
            15 => (some.unit, some.group),
            16 => (0, some.unit),
            17 => (some.group, 0),
            18 => self
                .rng
                .pick(&[(255, 255), (some.group, 255), (255, some.unit)]),
            _ => (self.rng.pick(&ODD_IDS), self.rng.pick(&ODD_IDS)),
        }
    }

    /// A group and a unit for a packet by UDP.
    fn pair_for_udp(&mut self) -> (u8, u8) {
        let some = self.some_w_panel();
        match self.rng.below(20) {
            0..=8 => (some.group, 255),
            9..=12 => (255, 255),
            13 => (some.unit, 255),
            14 => (255, some.unit),
            15 => (some.group, some.unit),
            16 => self.rng.pick(&[(0, 0), (0, some.unit), (some.group, 0)]),
            17 => self.rng.pick(&[(0, 255), (255, 0), (255, some.group)]),
            18 => (self.rng.pick(&IDS), 255),
            _ => (self.rng.pick(&ODD_IDS), self.rng.pick(&ODD_IDS)),
        }
    }

    fn some_w_panel(&mut self) -> Panel {
        let w: Vec<Panel> = self
            .panels
            .iter()
            .copied()
            .filter(|panel| panel.family == 'W')
            .collect();
        if w.is_empty() {
            Panel {
                family: 'W',
                group: self.rng.pick(&IDS),
                unit: self.rng.pick(&IDS),
            }
        } else {
            self.rng.pick(&w)
        }
    }

    fn tcp(&mut self) {
        let link = self.link('W');
        let area = self.area();
        let (group, unit) = self.pair_for_tcp();
        let mut message = packet(group, unit, &words::text(&mut self.rng));
        if self.rng.once_in(8) {
            self.spoil_packet(&mut message);
        }
        self.script.tcp(link, area, &message);
        if group != 0 && self.rng.once_in(3) {
            self.show_all();
        } else {
            self.look(link);
        }
    }

    /// One piece, or some in a row.
    fn pieces(&mut self) {
        for _ in 0..self.rng.pick(&[1, 1, 2, 3]) {
            self.piece();
        }
    }

    fn piece(&mut self) {
        let area = self.area();
        if self.rng.once_in(20) {
            let link = self.rng.pick(&[0, 9, 10, 255, 257, 4_294_967_295]);
            let (group, unit) = self.pair_for_tcp();
            return self
                .script
                .piece(link, area, &packet(group, unit, b"STATset LED ON"));
        }
        let link = self.link_of_a_wire();
        while self.wires[link - 1].is_empty() || self.rng.once_in(3) {
            let (group, unit) = self.pair_for_tcp();
            let mut message = packet(group, unit, &words::text(&mut self.rng));
            if self.rng.once_in(12) {
                self.spoil_packet(&mut message);
            }
            self.wires[link - 1].extend(wire::stretch(&mut self.rng, message));
        }
        let length = wire::cut(&mut self.rng, self.wires[link - 1].len());
        let piece: Vec<u8> = self.wires[link - 1].drain(..length).collect();
        self.script.piece(link as u64, area, &piece);
        if self.rng.once_in(6) {
            self.script.show(link as u64);
        }
    }

    /// Mostly a wire on which something waits, or that of a W panel.
    fn link_of_a_wire(&mut self) -> usize {
        let waiting: Vec<usize> = (1..=8)
            .filter(|link| !self.wires[link - 1].is_empty())
            .collect();
        let link = if waiting.is_empty() || self.rng.once_in(2) {
            self.link('W') as usize
        } else {
            self.rng.pick(&waiting)
        };
        if (1..=8).contains(&link) {
            link
        } else {
            1 + self.rng.below(8)
        }
    }

    fn udp(&mut self) {
        let (group, unit) = self.pair_for_udp();
        let data = if self.rng.once_in(4) {
            words::question(&mut self.rng)
        } else {
            words::text(&mut self.rng)
        };
        let mut message = packet(group, unit, &data);
        if self.rng.once_in(8) {
            self.spoil_packet(&mut message);
        }
        self.script.udp(&message);
        if self.rng.once_in(3) {
            self.show_all();
        }
    }

    fn spoil_packet(&mut self, message: &mut Vec<u8>) {
        let rng = &mut self.rng;
        match rng.below(16) {
            0 => message[0] = rng.pick(&[0x00, 0x02, 0x04, 0x83]),
            1 => message[1] = rng.pick(&[0x00, 0x0A, 0x0C, 0x8B]),
            2 => {
                let place = 2 + rng.below(4);
                message[place] ^= rng.pick(&[0x20, 0x01, 0x80]);
            }
            3 => message[8] = rng.pick(&[0x01, 0x02, 0x80, 0xFF]),
            4 => message[9] = rng.pick(&[0x00, 0xB1, 0xA0, 0x30]),
            5 => message[10] = rng.pick(&[0x01, 0x02, 0x80, 0xB0]),
            6 => message[11] = rng.pick(&[0x01, 0x02, 0x80, 0xFF]),
            7 => message[12] = message[12].wrapping_add(rng.pick(&[1, 255, 2, 128])),
            8 => message.truncate(rng.below(message.len())),
            9 => message.truncate(rng.below(14)),
            10 => message.push(rng.pick(&[0x00, b' ', b'0', 0xFF])),
            11 => {
                let count = rng.pick(&[498, 499, 500, 501, 512, 700, 1011]);
                let mut data = message[13..].to_vec();
                data.resize(count, rng.pick(b" 0A\0"));
                *message = packet(message[6], message[7], &data);
            }
            12 => {
                // The length fits modulo 256 only.
                message.extend(vec![b' '; 256]);
            }
            13 => {
                // Some parts of the envelope at once: the first of them is told (§8).
                message[8] = rng.pick(&[0x00, 0x00, 0x01]);
                message[10] = rng.pick(&[0x00, 0x00, 0x01]);
                message[11] = rng.pick(&[0x00, 0x01, 0x02]);
                message[12] = message[12].wrapping_add(rng.pick(&[0, 1, 255]));
            }
            14 => {
                let place = rng.below(message.len());
                message[place] ^= 1 << rng.below(8);
            }
            _ => {
                let count = rng.below(40);
                *message = rng.bytes(count);
            }
        }
    }

    /// Someone at the remote control (§6): some buttons, often near an end of the volume.
    fn remote(&mut self) {
        let link = self.link('K');
        if self.rng.once_in(3) {
            let volume = self.rng.pick(&["0", "1", "99", "100"]);
            let set = frame(b'C', b"VOLU", &zeros_before(volume));
            self.script.kjw(link, 512, &set);
        }
        for _ in 0..1 + self.rng.below(4) {
            let area = self.area();
            let mut message = self.remote_message();
            if self.rng.once_in(12) {
                self.spoil_kjw(&mut message);
            }
            self.script.kjw(link, area, &message);
        }
        self.look(link);
    }

    fn remote_message(&mut self) -> Vec<u8> {
        let rng = &mut self.rng;
        let code = match rng.below(12) {
            0..=6 => rng.pick(&words::STATE_CODES),
            7..=9 => rng.below(141) as u64,
            10 => rng.below(100) as u64 + rng.pick(&[100, 256, 1000, 65_536, 4_294_967_296]),
            _ => {
                return frame(b'C', b"IRCC", rng.pick(&words::NO_CODES).as_bytes());
            }
        };
        let kind = if rng.once_in(15) { b'E' } else { b'C' };
        frame(kind, b"IRCC", &zeros_before(&code.to_string()))
    }

    fn kjw(&mut self) {
        if self.rng.once_in(5) {
            return self.remote();
        }
        let link = self.link('K');
        let area = self.area();
        let mut message = self.kjw_message();
        if self.rng.once_in(8) {
            self.spoil_kjw(&mut message);
        }
        self.script.kjw(link, area, &message);
        self.look(link);
    }

    fn kjw_message(&mut self) -> Vec<u8> {
        let rng = &mut self.rng;
        let asked = [b'#'; 16];
        match rng.below(20) {
            0..=5 => {
                let letters = rng.pick(&[b"POWR", b"AMUT", b"PMUT"]);
                let flag = rng.pick(&["0", "1", "0", "1", "0", "1", "2", "10", "01", "#", "9"]);
                frame(b'C', letters, &zeros_before(flag))
            }
            6..=7 => frame(b'C', rng.pick(&[b"TPOW", b"TPMU"]), &asked),
            8..=10 => {
                let volume = match rng.below(4) {
                    0 => rng.pick(&[0, 1, 29, 99, 100]),
                    1 => rng.pick(&[
                        101,
                        102,
                        110,
                        127,
                        128,
                        255,
                        256,
                        300,
                        356,
                        65_536,
                        4_294_967_296,
                        4_294_967_396,
                        1_000_000_000_000_000,
                        9_999_999_999_999_999,
                    ]),
                    _ => rng.below(101) as u64,
                };
                frame(b'C', b"VOLU", &zeros_before(&volume.to_string()))
            }
            11..=13 => {
                let kind = rng.pick(b"1345134502679A");
                let port = rng.pick(&["0001", "0002", "0010", "0999", "9999", "0000", "00A1"]);
                let mut parameters = b"0000000x0000".to_vec();
                parameters[7] = kind;
                parameters.extend_from_slice(port.as_bytes());
                if rng.once_in(6) {
                    parameters[rng.below(12)] = rng.pick(b"1#");
                }
                frame(b'C', b"INPT", &parameters)
            }
            14..=15 => {
                let scene = rng.pick(&[
                    "auto",
                    "auto24pSync",
                    "general",
                    "auto",
                    "auto24pSync",
                    "general",
                    "",
                    "Auto",
                    "auto24psync",
                    "auto24pSyn",
                    "auto24pSyncs",
                    "General",
                    "genera",
                    "generals",
                    "auto general",
                ]);
                frame(b'C', b"SCEN", &hashes_behind(scene))
            }
            16..=18 => {
                let letters = rng.pick(&[
                    b"POWR", b"AMUT", b"PMUT", b"VOLU", b"INPT", b"SCEN", b"POWR", b"AMUT",
                    b"PMUT", b"VOLU", b"INPT", b"SCEN", b"TPOW", b"TPMU", b"IRCC", b"MADR",
                ]);
                frame(b'E', letters, &asked)
            }
            _ => {
                let letters = rng.pick(&[
                    b"IRCC", b"BADR", b"MADR", b"powr", b"POWE", b"VOLV", b"INPU", b"SCNE",
                    b"TPOW", b"TPMU", b"####", b"0000",
                ]);
                let parameters = rng.pick(&[asked, [b'0'; 16], [b'F'; 16], [b'1'; 16]]);
                frame(rng.pick(b"CE"), letters, &parameters)
            }
        }
    }

    fn spoil_kjw(&mut self, message: &mut Vec<u8>) {
        let rng = &mut self.rng;
        match rng.below(12) {
            0 => message[0] = rng.byte(),
            1 => message[1] = rng.pick(b"sTR\0"),
            2 => message[2] = rng.pick(b"ANceD\0"),
            3 => message[23] = rng.pick(b"\r\0# "),
            4 => message.truncate(rng.below(24)),
            5 => message.push(0x0A),
            6 => message.extend(message.clone()),
            7 => message[3 + rng.below(4)] = rng.byte(),
            8 => message[7 + rng.below(16)] = rng.pick(b"0123#F /:"),
            9 => message[7 + rng.below(16)] = rng.byte(),
            10 => {
                let place = rng.below(24);
                message[place] ^= 1 << rng.below(8);
            }
            _ => {
                let count = rng.pick(&[0, 1, 23, 24, 25]);
                *message = rng.bytes(count);
            }
        }
    }

    /// A text that fits, mostly.
    fn text(&mut self, length: usize) -> Vec<u8> {
        let count = match self.rng.below(4) {
            0 => 0,
            1 => length,
            _ => self.rng.below(length + 1),
        };
        let letters: Vec<u8> = (0..count).map(|_| self.rng.byte().max(1)).collect();
        padded(&letters, length)
    }

    fn advert(&mut self) {
        let mut bytes = match self.rng.below(4) {
            0 => advert_of_000(),
            1 => full_advert(),
            _ => {
                let mut bytes = self.rng.bytes(122);
                bytes[..8].copy_from_slice(b"DA\x04\x0BSONY");
                bytes[3] = self.rng.pick(&[0x0B, 0x0C]);
                for place in [24, 70] {
                    bytes[place] = 0;
                    bytes[place + 1] = self.rng.below(2) as u8;
                }
                for (start, length) in ADVERT_TEXTS {
                    let text = self.text(length);
                    bytes[start..start + length].copy_from_slice(&text);
                }
                bytes
            }
        };
        let rng = &mut self.rng;
        match rng.below(12) {
            0 => bytes.truncate(rng.below(122)),
            1 => bytes.extend(vec![0; 1 + rng.below(4)]),
            2 => bytes[rng.below(8)] ^= 1 << rng.below(8),
            3 => bytes[3] = rng.byte(),
            4 => bytes[24 + rng.below(2)] = rng.pick(&[1, 2, 255]),
            5 => bytes[70 + rng.below(2)] = rng.pick(&[1, 2, 255]),
            6 => {
                let (start, length) = rng.pick(&ADVERT_TEXTS);
                bytes[start + rng.below(length)] = rng.pick(&[0, b'X']);
            }
            7 => bytes[rng.below(122)] = rng.byte(),
            _ => {}
        }
        self.script.line(format!("advert {}", hex(&bytes)));
    }

    fn write(&mut self) {
        let mut wanted = WriteWords::good();
        wanted.area = self
            .rng
            .pick(&["122", "123", "130", "512", "1024"])
            .to_string();
        wanted.category = self.rng.pick(&["11", "12"]).to_string();
        wanted.product = self.text(12);
        wanted.location = self.text(24);
        wanted.region = self.text(24);
        wanted.name = self.text(24);
        wanted.serial = self.rng.number().to_string();
        wanted.power = self.rng.below(2).to_string();
        wanted.error = self.rng.below(2).to_string();
        for address in &mut wanted.addresses {
            *address = (self.rng.number() >> self.rng.pick(&[0, 0, 16, 31])).to_string();
        }
        wanted.group = self.rng.byte().to_string();
        wanted.unit = self.rng.byte().to_string();
        for _ in 0..self.rng.pick(&[0, 0, 1, 1, 2]) {
            self.spoil_write(&mut wanted);
        }
        self.script.line(wanted.line());
    }

    fn spoil_write(&mut self, wanted: &mut WriteWords) {
        let rng = &mut self.rng;
        let texts = [
            &mut wanted.product,
            &mut wanted.location,
            &mut wanted.region,
            &mut wanted.name,
        ];
        match rng.below(9) {
            0 => wanted.area = rng.pick(&["0", "1", "121", "120", "1025"]).to_string(),
            1 => {
                wanted.category = rng
                    .pick(&["0", "10", "13", "255", "256", "267"])
                    .to_string()
            }
            2 => wanted.power = rng.pick(&["2", "256", "257", "65535", "65536"]).to_string(),
            3 => wanted.error = rng.pick(&["2", "256", "257", "65535", "65537"]).to_string(),
            4 => wanted.serial = rng.pick(&["4294967295", "4294967296", "00"]).to_string(),
            5 => wanted.group = rng.pick(&["0", "100", "255", "256"]).to_string(),
            6 => wanted.unit = rng.pick(&["0", "100", "255", "256"]).to_string(),
            7 => {
                let place = rng.below(4);
                let count = rng.pick(&[0, 1, 11, 12, 13, 23, 24, 25]);
                texts
                    .into_iter()
                    .nth(place)
                    .into_iter()
                    .for_each(|text| text.resize(count, 0));
            }
            _ => {
                let place = rng.below(4);
                for text in texts.into_iter().skip(place).take(1) {
                    if let [_, .., before, last] = text.as_mut_slice() {
                        *before = 0;
                        *last = rng.pick(&[0, 1, b'X']);
                    }
                }
            }
        }
    }

    fn sum(&mut self) {
        let count = self.rng.pick(&[0, 1, 2, 3, 6, 20, 255, 256, 1024]);
        let mut bytes = self.rng.bytes(count);
        if self.rng.once_in(2) {
            if let Some(last) = bytes.last_mut() {
                *last = 0;
            }
            let sum = bytes.iter().fold(0u8, |sum, byte| sum.wrapping_add(*byte));
            if let Some(last) = bytes.last_mut() {
                *last = sum.wrapping_neg();
            }
        }
        let text = hex(&bytes);
        let text = if self.rng.once_in(4) {
            text.to_lowercase()
        } else {
            text
        };
        self.script.line(format!("sum {text}"));
    }

    fn no_order(&mut self) {
        let rng = &mut self.rng;
        let line = match rng.below(8) {
            0..=4 => rng.pick(&self.no_orders),
            5 => rng.pick(&self.bad_writes).into_bytes(),
            6 => {
                let count = 1 + rng.below(60);
                let bytes = rng.bytes(count);
                bytes.into_iter().filter(|byte| *byte != b'\n').collect()
            }
            _ => {
                let mut line =
                    b"tcp 1 512 030B534F4E59000000B000000B53544154676574204C4544".to_vec();
                let place = rng.below(line.len());
                line[place] = rng.pick(b" \t\r-xg,0");
                line
            }
        };
        // A line that happens to be empty or a comment is answered with nothing.
        if line.first().is_none_or(|byte| *byte == b'#') {
            self.script.passed_over(line);
        } else {
            self.script.line(line);
        }
    }

    fn passed_over(&mut self) {
        let line = match self.rng.below(4) {
            0 => Vec::new(),
            1 => b"#".to_vec(),
            2 => vec![b'#'; self.rng.pick(&[4095, 4096, 4097, 9000])],
            _ => b"# show 1\t\r\xFF".to_vec(),
        };
        self.script.passed_over(line);
    }
}
