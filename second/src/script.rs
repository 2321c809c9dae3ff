//! The script language of `replay`: one order a line in, what the box did out.
//!
//! What a line means and writes is in docs/SCRIPTS.md, which is quoted here.

use std::io::{self, BufRead, Write};

use crate::advert::{self, Fields, Wanted};
use crate::answer::Answer;
use crate::checksum;
use crate::config::{configure, DisplayBox};
use crate::message::{receive, Way};
use crate::panel::{Connector, KSettings, Panel, Settings, WSettings};
use crate::plain::{self, End};
use crate::receiver::Receiver;
use crate::vmc;

/// "A line holds at most 4,096 bytes before its end."
const LONGEST_LINE: usize = 4096;

/// "at most 1,024 bytes", of a HEX word; of an area "(0 to 1,024)".
const MOST_BYTES: usize = 1024;

/// "0 to 16 panels may be written".
const MOST_PANELS_WRITTEN: usize = 16;

/// "the receiver of TCP link LINK (1 to 8)".
const RECEIVERS: u32 = 8;

/// Reply areas come filled with this byte.
const FILL: u8 = 0xA5;

/// Runs a whole script. What it writes is complete when this returns.
pub fn run(mut input: impl BufRead, mut output: impl Write) -> io::Result<()> {
    let mut replay = Replay::new();
    let mut line = Vec::new();
    while next_line(&mut input, &mut line)? {
        if let Some(text) = replay.answer_line(&line) {
            output.write_all(text.as_bytes())?;
            output.write_all(b"\n")?;
        }
    }
    output.flush()
}

/// Reads the next line without its end; false when there is none. Of a line that is too long only
/// so much is kept that it can be seen to be so.
fn next_line(input: &mut impl BufRead, line: &mut Vec<u8>) -> io::Result<bool> {
    line.clear();
    let mut begun = false;
    loop {
        let piece = match input.fill_buf() {
            Err(error) if error.kind() == io::ErrorKind::Interrupted => continue,
            piece => piece?,
        };
        if piece.is_empty() {
            return Ok(begun);
        }
        begun = true;
        let end = piece.iter().position(|byte| *byte == b'\n');
        let length = end.unwrap_or(piece.len());
        let room = (LONGEST_LINE + 1).saturating_sub(line.len());
        line.extend_from_slice(&piece[..length.min(room)]);
        input.consume(length + usize::from(end.is_some()));
        if end.is_some() {
            return Ok(true);
        }
    }
}

/// The box between the orders, and the receiver of each TCP link.
#[derive(Debug, Default)]
pub struct Replay {
    held: DisplayBox,
    receivers: [Receiver; RECEIVERS as usize],
}

impl Replay {
    /// "A script starts with a box of no panels, and with empty receivers."
    pub fn new() -> Replay {
        Replay::default()
    }

    /// What one line (without its end) is answered with; nothing for an empty line or a comment. A
    /// `piece` is answered with several lines, one below the other.
    pub fn answer_line(&mut self, line: &[u8]) -> Option<String> {
        // "An empty line, and a line that begins with `#` (however long), is passed over".
        if line.is_empty() || line[0] == b'#' {
            return None;
        }
        let text = match read_order(line) {
            Some(order) => self.carry_out(order),
            None => "unread".to_string(),
        };
        Some(text)
    }

    fn carry_out(&mut self, order: Order) -> String {
        match order {
            // "`box` makes a new box and leaves receivers ... alone".
            Order::Box(description) => {
                let (answer, new_box) = configure(&description);
                self.held = new_box;
                format!("box {}", answer.number())
            }
            Order::Rs232 { link, area, bytes } => {
                self.message(area, |area| Way::Rs232c { link, area }, &bytes)
            }
            Order::Kjw { link, area, bytes } => {
                self.message(area, |area| Way::Kjw { link, area }, &bytes)
            }
            Order::Tcp { link, area, bytes } => {
                self.message(area, |area| Way::Tcp { link, area }, &bytes)
            }
            Order::Udp(bytes) => {
                let outcome = receive(&mut self.held, Way::Udp, &bytes);
                answer_text(outcome.answer, outcome.place)
            }
            Order::Show(link) => match self.held.panel(link) {
                Some(panel) => show(panel),
                None => "none".to_string(),
            },
            Order::Advert(bytes) => match advert::read(&bytes) {
                (Answer::CarriedOut, fields) => fields_text(&fields),
                (answer, _) => answer_text(answer, 0),
            },
            Order::Write(order) => write_advert(&order),
            Order::Sum(bytes) => {
                let text = if checksum::sums_to_zero(&bytes) {
                    "yes"
                } else {
                    "no"
                };
                text.to_string()
            }
            Order::Piece { link, area, bytes } => self.piece(link, area, &bytes),
            Order::Plain(bytes) => list_text(&bytes),
        }
    }

    /// "a piece to the receiver of TCP link LINK (1 to 8), called until a call hands out nothing;
    /// each packet goes to the box as by `tcp LINK AREA` at once". Writes "for each packet `packet
    /// HEX` and the line that `tcp` would write; then `held N`, the bytes that the receiver keeps".
    fn piece(&mut self, link: u32, area: usize, piece: &[u8]) -> String {
        let receiver = link as usize - 1;
        let mut lines = Vec::new();
        let mut rest = piece;
        loop {
            let call = self.receivers[receiver].take(rest);
            rest = &rest[call.taken..];
            let Some(packet) = call.packet else {
                break;
            };
            lines.push(format!("packet {}", hex(&packet)));
            lines.push(self.message(area, |area| Way::Tcp { link, area }, &packet));
        }
        lines.push(format!("held {}", self.receivers[receiver].held));
        lines.join("\n")
    }

    fn message(
        &mut self,
        area: usize,
        way: impl for<'a> FnOnce(&'a mut [u8]) -> Way<'a>,
        bytes: &[u8],
    ) -> String {
        let mut area = vec![FILL; area];
        let outcome = receive(&mut self.held, way(&mut area), bytes);
        let answer = answer_text(outcome.answer, outcome.place);
        reply_text(answer, &area, outcome.written)
    }
}

/// `answer A`; from §8 on "a message's answer is written `answer A at P` where P is not 0, before
/// ` reply`".
pub fn answer_text(answer: Answer, place: usize) -> String {
    let number = answer.number();
    if place == 0 {
        format!("answer {number}")
    } else {
        format!("answer {number} at {place}")
    }
}

/// "A message with a reply area is answered `answer A reply HEX`".
fn reply_text(answer: String, area: &[u8], written: usize) -> String {
    let (reply, behind) = area.split_at(written);
    let spoiled = if behind.iter().all(|byte| *byte == FILL) {
        ""
    } else {
        " spoiled"
    };
    format!("{answer} reply {}{spoiled}", hex(reply))
}

/// "Output is in capitals."; "(`-` for none)".
fn hex(bytes: &[u8]) -> String {
    if bytes.is_empty() {
        return "-".to_string();
    }
    bytes.iter().map(|byte| format!("{byte:02X}")).collect()
}

fn write_advert(order: &WriteOrder) -> String {
    let mut area = vec![FILL; order.area];
    let wanted = Wanted {
        category: order.category,
        product: &order.product,
        serial: order.serial,
        power: order.power,
        location: &order.location,
        connected: order.connected,
        accepted: order.accepted,
        error: order.error,
        region: &order.region,
        name: &order.name,
        group: order.group,
        unit: order.unit,
    };
    let answer = advert::write(&mut area, &wanted);
    let written = if answer == Answer::CarriedOut {
        advert::LENGTH
    } else {
        0
    };
    reply_text(answer_text(answer, 0), &area, written)
}

fn fields_text(fields: &Fields) -> String {
    let [first, second, third, fourth] = fields.accepted;
    [
        "answer 0".to_string(),
        format!("category {}", fields.category),
        format!("product {}", hex(&fields.product)),
        format!("serial {}", fields.serial),
        format!("power {}", fields.power),
        format!("location {}", hex(&fields.location)),
        format!("ip {}", fields.connected),
        format!("accepted {first} {second} {third} {fourth}"),
        format!("error {}", fields.error),
        format!("region {}", hex(&fields.region)),
        format!("name {}", hex(&fields.name)),
        format!("group {}", fields.group),
        format!("unit {}", fields.unit),
    ]
    .join(" ")
}

/// "`plain S:L S:L .. end N`, each entry's start and length, N where the tail begins (or the buffer
/// ends); `stop N` in place of `end N` where a 65th entry would start at N".
fn list_text(bytes: &[u8]) -> String {
    let list = plain::list(bytes);
    let mut words = vec!["plain".to_string()];
    for entry in list.entries {
        words.push(format!("{}:{}", entry.start, entry.length));
    }
    words.push(match list.end {
        End::Tail(place) => format!("end {place}"),
        End::Stop(place) => format!("stop {place}"),
    });
    words.join(" ")
}

fn show(panel: &Panel) -> String {
    match &panel.settings {
        Settings::W(settings) => show_w(panel, settings),
        Settings::K(settings) => show_k(settings),
    }
}

fn show_w(panel: &Panel, settings: &WSettings) -> String {
    let mut parts = vec![format!("W {} {}", panel.group.0, panel.unit.0)];
    for name in vmc::Name::all() {
        parts.push(vmc::words(settings, name));
    }
    parts.push(format!("INPUT {} ON", settings.input.code()));
    for connector in Connector::ALL {
        if settings.connector_is_on(connector) {
            parts.push(connector.code().to_string());
        }
    }
    parts.push(format!("PRESET {}", settings.preset.code()));
    let [r, g, b] = settings.gain;
    parts.push(format!("GAIN {r} {g} {b}"));
    let [r, g, b] = settings.bias;
    parts.push(format!("BIAS {r} {g} {b}"));
    parts.join(" ")
}

fn show_k(settings: &KSettings) -> String {
    format!(
        "K POWR {} INPT {} {} VOLU {} AMUT {} PMUT {} SCEN {}",
        u8::from(settings.power),
        char::from(settings.input_type.digit()),
        settings.port,
        settings.volume,
        u8::from(settings.audio_mute),
        u8::from(settings.picture_mute),
        settings.scene.name()
    )
}

/// A line that was read.
enum Order {
    Box(Vec<u8>),
    Rs232 {
        link: u32,
        area: usize,
        bytes: Vec<u8>,
    },
    Kjw {
        link: u32,
        area: usize,
        bytes: Vec<u8>,
    },
    Tcp {
        link: u32,
        area: usize,
        bytes: Vec<u8>,
    },
    Udp(Vec<u8>),
    Show(u32),
    Advert(Vec<u8>),
    Write(Box<WriteOrder>),
    Sum(Vec<u8>),
    Piece {
        link: u32,
        area: usize,
        bytes: Vec<u8>,
    },
    Plain(Vec<u8>),
}

struct WriteOrder {
    area: usize,
    category: u8,
    product: Vec<u8>,
    serial: u32,
    power: u16,
    location: Vec<u8>,
    connected: u32,
    accepted: [u32; 4],
    error: u16,
    region: Vec<u8>,
    name: Vec<u8>,
    group: u8,
    unit: u8,
}

/// Reads an order; nothing where the line is none.
fn read_order(line: &[u8]) -> Option<Order> {
    if line.len() > LONGEST_LINE {
        return None;
    }
    // "Words are parted by one space; no space stands before the first or after the last word." A
    // space too many makes an empty word, which no place of an order takes.
    let words: Vec<&[u8]> = line.split(|byte| *byte == b' ').collect();
    match words.as_slice() {
        [b"box", panels @ ..] => read_box(panels),
        [b"rs232", link, area, bytes] => Some(Order::Rs232 {
            link: read_number(link)?,
            area: read_area(area)?,
            bytes: read_hex(bytes)?,
        }),
        [b"kjw", link, area, bytes] => Some(Order::Kjw {
            link: read_number(link)?,
            area: read_area(area)?,
            bytes: read_hex(bytes)?,
        }),
        [b"tcp", link, area, bytes] => Some(Order::Tcp {
            link: read_number(link)?,
            area: read_area(area)?,
            bytes: read_hex(bytes)?,
        }),
        [b"udp", bytes] => Some(Order::Udp(read_hex(bytes)?)),
        [b"show", link] => Some(Order::Show(read_number(link)?)),
        [b"advert", bytes] => Some(Order::Advert(read_hex(bytes)?)),
        [b"write", fields @ ..] => read_write(fields),
        [b"sum", bytes] => Some(Order::Sum(read_hex(bytes)?)),
        [b"piece", link, area, bytes] => Some(Order::Piece {
            link: read_link_with_receiver(link)?,
            area: read_area(area)?,
            bytes: read_hex(bytes)?,
        }),
        [b"plain", bytes] => Some(Order::Plain(read_hex(bytes)?)),
        _ => None,
    }
}

/// The words behind `write`: "AREA CATEGORY PRODUCT SERIAL POWER LOCATION IP IP1 IP2 IP3 IP4 ERROR
/// REGION NAME GROUP UNIT ... the four texts are HEX, the rest N (CATEGORY, GROUP, UNIT to 255,
/// POWER, ERROR to 65535)".
fn read_write(words: &[&[u8]]) -> Option<Order> {
    if words.len() != 16 {
        return None;
    }
    Some(Order::Write(Box::new(WriteOrder {
        area: read_area(words[0])?,
        category: read_byte(words[1])?,
        product: read_hex(words[2])?,
        serial: read_number(words[3])?,
        power: read_short(words[4])?,
        location: read_hex(words[5])?,
        connected: read_number(words[6])?,
        accepted: [
            read_number(words[7])?,
            read_number(words[8])?,
            read_number(words[9])?,
            read_number(words[10])?,
        ],
        error: read_short(words[11])?,
        region: read_hex(words[12])?,
        name: read_hex(words[13])?,
        group: read_byte(words[14])?,
        unit: read_byte(words[15])?,
    })))
}

/// The panels behind `box`: "for each panel its family (W or K), group and unit (0 to 255)".
fn read_box(words: &[&[u8]]) -> Option<Order> {
    if !words.len().is_multiple_of(3) || words.len() > 3 * MOST_PANELS_WRITTEN {
        return None;
    }
    let mut description = Vec::new();
    for panel in words.chunks_exact(3) {
        let family = match panel[0] {
            b"W" => b'W',
            b"K" => b'K',
            _ => return None,
        };
        description.push(family);
        description.push(read_byte(panel[1])?);
        description.push(read_byte(panel[2])?);
    }
    Some(Order::Box(description))
}

/// "N is a decimal number without sign or leading zero, at most 4,294,967,295."
fn read_number(word: &[u8]) -> Option<u32> {
    if word.is_empty() || word.len() > 1 && word[0] == b'0' {
        return None;
    }
    let mut number: u32 = 0;
    for byte in word {
        let digit = byte.checked_sub(b'0').filter(|digit| *digit <= 9)?;
        number = number.checked_mul(10)?.checked_add(u32::from(digit))?;
    }
    Some(number)
}

fn read_byte(word: &[u8]) -> Option<u8> {
    u8::try_from(read_number(word)?).ok()
}

fn read_short(word: &[u8]) -> Option<u16> {
    u16::try_from(read_number(word)?).ok()
}

/// The number of a link that has a receiver.
fn read_link_with_receiver(word: &[u8]) -> Option<u32> {
    read_number(word).filter(|link| (1..=RECEIVERS).contains(link))
}

fn read_area(word: &[u8]) -> Option<usize> {
    let area = usize::try_from(read_number(word)?).ok()?;
    (area <= MOST_BYTES).then_some(area)
}

/// "HEX is an even number of hex digits, either case, or a lone `-` for no bytes."
fn read_hex(word: &[u8]) -> Option<Vec<u8>> {
    if word == b"-" {
        return Some(Vec::new());
    }
    if word.is_empty() || !word.len().is_multiple_of(2) || word.len() > 2 * MOST_BYTES {
        return None;
    }
    word.chunks_exact(2)
        .map(|pair| Some(hex_digit(pair[0])? << 4 | hex_digit(pair[1])?))
        .collect()
}

fn hex_digit(byte: u8) -> Option<u8> {
    match byte {
        b'0'..=b'9' => Some(byte - b'0'),
        b'A'..=b'F' => Some(byte - b'A' + 10),
        b'a'..=b'f' => Some(byte - b'a' + 10),
        _ => None,
    }
}
