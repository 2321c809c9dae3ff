//! Messages and order lines, put together byte by byte.

/// A script in the making.
pub struct Script {
    pub bytes: Vec<u8>,
    pub orders: usize,
    most: usize,
}

impl Script {
    /// A script that takes no more orders than this.
    pub fn of_at_most(most: usize) -> Script {
        Script {
            bytes: Vec::new(),
            orders: 0,
            most,
        }
    }

    /// A line that is answered.
    pub fn line(&mut self, line: impl AsRef<[u8]>) {
        if self.orders < self.most {
            self.passed_over(line);
            self.orders += 1;
        }
    }

    /// A line that is passed over.
    pub fn passed_over(&mut self, line: impl AsRef<[u8]>) {
        self.bytes.extend_from_slice(line.as_ref());
        self.bytes.push(b'\n');
    }

    pub fn comment(&mut self, text: &str) {
        self.passed_over(format!("# {text}"));
    }

    pub fn rs232(&mut self, link: u64, area: usize, message: &[u8]) {
        self.line(format!("rs232 {link} {area} {}", hex(message)));
    }

    pub fn kjw(&mut self, link: u64, area: usize, message: &[u8]) {
        self.line(format!("kjw {link} {area} {}", hex(message)));
    }

    pub fn tcp(&mut self, link: u64, area: usize, message: &[u8]) {
        self.line(format!("tcp {link} {area} {}", hex(message)));
    }

    pub fn udp(&mut self, message: &[u8]) {
        self.line(format!("udp {}", hex(message)));
    }

    pub fn piece(&mut self, link: u64, area: usize, piece: &[u8]) {
        self.line(format!("piece {link} {area} {}", hex(piece)));
    }

    pub fn plain(&mut self, buffer: &[u8]) {
        self.line(format!("plain {}", hex(buffer)));
    }

    pub fn show(&mut self, link: u64) {
        self.line(format!("show {link}"));
    }

    pub fn show_all(&mut self, panels: usize) {
        for link in 1..=panels {
            self.show(link as u64);
        }
    }
}

pub fn hex(bytes: &[u8]) -> String {
    if bytes.is_empty() {
        return "-".to_string();
    }
    bytes.iter().map(|byte| format!("{byte:02X}")).collect()
}

/// Makes the last byte the checksum over all bytes but the first.
pub fn close(message: &mut [u8]) {
    if let [_, counted @ .., last] = message {
        let sum = counted
            .iter()
            .fold(0u8, |sum, byte| sum.wrapping_add(*byte));
        *last = sum.wrapping_neg();
    }
}

/// An RS-232C message to 01h with its count and checksum right, as far as a byte can say it.
pub fn serial(source: u8, block: &[u8]) -> Vec<u8> {
    let mut message = vec![0x02, (block.len() + 2) as u8, 0x01, source];
    message.extend_from_slice(block);
    message.push(0);
    close(&mut message);
    message
}

/// An SDCP request with its length right.
pub fn packet(group: u8, unit: u8, data: &[u8]) -> Vec<u8> {
    let mut message = b"\x03\x0BSONY".to_vec();
    message.extend_from_slice(&[group, unit, 0x00, 0xB0, 0x00]);
    message.extend_from_slice(&(data.len() as u16).to_be_bytes());
    message.extend_from_slice(data);
    message
}

/// A KJW frame.
pub fn frame(kind: u8, letters: &[u8], parameters: &[u8]) -> Vec<u8> {
    let mut message = vec![b'*', b'S', kind];
    message.extend_from_slice(letters);
    message.extend_from_slice(parameters);
    message.push(0x0A);
    message
}

/// Sixteen places with this text at their end and `0` before it.
pub fn zeros_before(text: &str) -> Vec<u8> {
    format!("{text:0>16}").into_bytes()
}

/// Sixteen places with this text at their front and `#` behind it.
pub fn hashes_behind(text: &str) -> Vec<u8> {
    format!("{text:#<16}").into_bytes()
}

/// The words of a `write` order, each to be changed by itself.
#[derive(Clone)]
pub struct WriteWords {
    pub area: String,
    pub category: String,
    pub product: Vec<u8>,
    pub serial: String,
    pub power: String,
    pub location: Vec<u8>,
    pub addresses: [String; 5],
    pub error: String,
    pub region: Vec<u8>,
    pub name: Vec<u8>,
    pub group: String,
    pub unit: String,
}

impl WriteWords {
    pub fn good() -> WriteWords {
        WriteWords {
            area: "122".to_string(),
            category: "11".to_string(),
            product: padded(b"LMD3250MD", 12),
            serial: "3106846".to_string(),
            power: "1".to_string(),
            location: padded(b"Gate 7", 24),
            addresses: ["167772161", "16909060", "4294967295", "0", "3232235777"].map(String::from),
            error: "0".to_string(),
            region: padded(b"", 24),
            name: padded(b"ABCDEFGHIJKLMNOPQRSTUVWX", 24),
            group: "1".to_string(),
            unit: "255".to_string(),
        }
    }

    pub fn line(&self) -> String {
        format!(
            "write {} {} {} {} {} {} {} {} {} {} {} {}",
            self.area,
            self.category,
            hex(&self.product),
            self.serial,
            self.power,
            hex(&self.location),
            self.addresses.join(" "),
            self.error,
            hex(&self.region),
            hex(&self.name),
            self.group,
            self.unit
        )
    }
}

/// A text with 00h behind it.
pub fn padded(text: &[u8], length: usize) -> Vec<u8> {
    let mut bytes = text.to_vec();
    bytes.resize(length, 0);
    bytes
}

/// Where the four texts of an advert stand, and how long they are.
pub const ADVERT_TEXTS: [(usize, usize); 4] = [(8, 12), (26, 24), (72, 24), (96, 24)];

/// The example of document 000.
pub fn advert_of_000() -> Vec<u8> {
    let mut bytes = b"DA\x04\x0BSONYLMD3250MD\0\0\0\x00\x2F\x68\x1E".to_vec();
    bytes.resize(120, 0);
    bytes.extend_from_slice(&[1, 1]);
    bytes
}

/// An advert with every field filled.
pub fn full_advert() -> Vec<u8> {
    let mut bytes = b"DA\x04\x0CSONYABCDEFGHIJKL\x01\x02\x03\x04\0\x01".to_vec();
    bytes.extend_from_slice(b"Location, 24 characters!");
    for byte in 1..=20 {
        bytes.push(byte * 11);
    }
    bytes.extend_from_slice(&[0, 1]);
    bytes.extend_from_slice(b"Region, of 24 characters");
    bytes.extend_from_slice(b"Name, that is 24 letters");
    bytes.extend_from_slice(&[99, 255]);
    bytes
}
