//! The words of document 01 and of the manuals, and near misses of them.

use crate::rng::Rng;

pub const LEVELS: [&str; 3] = ["PHASE", "CHROMA", "VOLUME"];
pub const SHIFTS: [&str; 2] = ["SHIFTH", "SHIFTV"];
pub const CHOICES: [&str; 7] = [
    "MODE0",
    "MODE1",
    "MODE2",
    "NTSC0",
    "NTSC75",
    "RGB RANGE FULL",
    "RGB RANGE LIMITED",
];
pub const CHOICE_NAMES: [&str; 3] = ["MODE", "NTSC", "RGB RANGE"];
pub const SWITCHES: [&str; 12] = [
    "REMOTE",
    "POWERSAVING",
    "KEYINHIBIT",
    "TALLYGREEN",
    "TALLYRED",
    "HVDELAY",
    "BLUEONLY",
    "MONOCHR",
    "CAMERA FOCUS",
    "LED",
    "SCREENSAVER",
    "SILENTMODE",
];
pub const FLIPS: [&str; 3] = ["FLIPH", "FLIPV", "FLIPHV"];

/// What consoles put behind their strings, and §2 takes off again.
pub const GOOD_ENDINGS: [&[u8]; 5] = [b" ", b"  ", b"\0", b" \0", b"  \0"];

/// What is nearly such an ending.
pub const BAD_ENDINGS: [&[u8]; 6] = [b"\0 ", b"\0\0", b" \0 ", b"\t", b" \t", b"\x01"];

/// Questions with no good name: status is asked all the same (§5).
pub const QUESTIONS: [&str; 14] = [
    "STATget",
    "STATget",
    "STATget ",
    "STATget LOUDNESS",
    "STATget RESET",
    "STATget MODE0",
    "STATget VOLUME 40",
    "STATget  VOLUME",
    "STATget volume",
    "STATget STATget",
    "STATget ?",
    "STATget \t",
    "STATget \0 ",
    "STATget \0VOLUME",
];

/// What is nearly a question, and asks for nothing.
pub const NO_QUESTIONS: [&str; 14] = [
    "STATge",
    "STATge VOLUME",
    "STATgetVOLUME",
    "STATgets VOLUME",
    "STATget_VOLUME",
    "STATget\tVOLUME",
    "STATget\0VOLUME",
    "STATget\0 VOLUME",
    "STATGET VOLUME",
    "statget VOLUME",
    " STATget VOLUME",
    " STATget",
    "STATset STATget VOLUME",
    "VOLUME STATget",
];

/// Words of the manuals, and others, that document 01 does not take.
pub const STRANGERS: [&str; 40] = [
    "STATset CONTRAST 50",
    "STATset BRIGHTNESS 50",
    "STATset APERTURE 3",
    "STATset APA ON",
    "STATset PICMIRROR ON",
    "STATset SPLASHLOGO OFF",
    "STATset INPUTSEL DVI",
    "STATset WBSEL USER",
    "STATset PITCH 3",
    "STATset SIZEH 3",
    "STATset SMPTE",
    "STATset BETA75",
    "STATset ENGLISH",
    "STATset GAMMA3",
    "STATset MARKER ON",
    "STATset EXTSYNC OFF",
    "STATset SCANMODE OVER",
    "STATset ASPECT 4BY3",
    "STATset MODE",
    "STATset MODE3",
    "STATset MODE 0",
    "STATset NTSC",
    "STATset NTSC7",
    "STATset NTSC 75",
    "STATset RGB RANGE",
    "STATset RGB FULL",
    "STATset RGBRANGE FULL",
    "STATset RANGE FULL",
    "STATset FLIP ON",
    "STATset CAMERA ON",
    "STATset FOCUS ON",
    "STATset CAMERAFOCUS ON",
    "STATset ON",
    "STATget RESET",
    "STATget MODE0",
    "STATget NTSC75",
    "STATget RGB",
    "STATget CAMERA",
    "STATret VOLUME 30",
    "INFObutton MENU",
];

/// The codes of the remote control that are for a state (§6).
pub const STATE_CODES: [u64; 9] = [30, 31, 32, 50, 98, 124, 125, 126, 127];

/// Sixteen places that are no sixteen decimal digits, or write another number than their end does.
pub const NO_CODES: [&str; 22] = [
    "################",
    "##############30",
    "#############098",
    "00000000000000##",
    "              30",
    "0000000000000 30",
    "0000000000000+30",
    "0000000000000-30",
    "000000000000x030",
    "000000000000001E",
    "000000000000001e",
    "000000000000007C",
    "000000000000003:",
    "000000000000003/",
    "000000000000030.",
    "FFFFFFFFFFFFFFFF",
    "Volume Up#######",
    "3000000000000000",
    "1000000000000030",
    "0000000100000124",
    "0000000000001030",
    "9999999999999999",
];

/// Every name that STATget takes.
pub fn names() -> Vec<&'static str> {
    [&LEVELS[..], &SHIFTS, &CHOICE_NAMES, &SWITCHES, &FLIPS].concat()
}

/// One good data area for each setting, and one for each question.
pub fn good_texts() -> Vec<String> {
    let mut texts = Vec::new();
    for (place, name) in LEVELS.iter().enumerate() {
        texts.push(format!("STATset {name} {}", 61 + place));
    }
    for (place, name) in SHIFTS.iter().enumerate() {
        texts.push(format!("STATset {name} -{}", 11 + place));
        texts.push(format!("STATset {name} +{}", 21 + place));
    }
    for choice in CHOICES {
        texts.push(format!("STATset {choice}"));
    }
    texts.push("STATset RESET".to_string());
    for (place, switch) in SWITCHES.iter().enumerate() {
        let state = if place % 2 == 0 { "OFF" } else { "ON" };
        texts.push(format!("STATset {switch} {state}"));
    }
    for flip in FLIPS {
        texts.push(format!("STATset {flip} ON"));
        texts.push(format!("STATset {flip} OFF"));
    }
    for name in names() {
        texts.push(format!("STATget {name}"));
    }
    texts
}

/// A word for the place of a level: round its bounds, and what is no such number.
pub fn level(rng: &mut Rng) -> String {
    match rng.below(12) {
        0..=4 => rng.below(101).to_string(),
        5 => rng.pick(&["0", "1", "99", "100"]).to_string(),
        6 => rng
            .pick(&["101", "102", "110", "127", "128", "255"])
            .to_string(),
        7 => rng
            .pick(&["256", "257", "296", "65536", "65576"])
            .to_string(),
        8 => rng
            .pick(&["4294967296", "4294967336", "18446744073709551656"])
            .to_string(),
        9 => rng
            .pick(&["00", "01", "007", "040", "0100", "000"])
            .to_string(),
        10 => rng
            .pick(&["+5", "-5", "+0", "-0", "+", "-", "", "+100"])
            .to_string(),
        _ => rng
            .pick(&["5a", "a5", "4O", "0x5", "5.", "ON", "1e1", "\u{0}"])
            .to_string(),
    }
}

/// A word for the place of a shift.
pub fn shift(rng: &mut Rng) -> String {
    let sign = rng.pick(&["", "+", "-"]);
    match rng.below(12) {
        0..=4 => format!("{sign}{}", rng.below(31)),
        5 => format!("{sign}{}", rng.pick(&["0", "1", "29", "30", "31", "32"])),
        6 => format!("{sign}{}", rng.pick(&["100", "127", "128", "129", "226"])),
        7 => format!("{sign}{}", rng.pick(&["255", "256", "257", "286", "65536"])),
        8 => format!("{sign}{}", rng.pick(&["4294967296", "4294967301"])),
        9 => format!("{sign}{}", rng.pick(&["00", "05", "030", "000"])),
        10 => rng
            .pick(&["+", "-", "", "++5", "--5", "+-5", "-+5", "5-", "5+"])
            .to_string(),
        _ => rng
            .pick(&["5a", "a5", "3O", "0x5", "5.", "ON", "- 5", "+ 5"])
            .to_string(),
    }
}

/// An ending, mostly a good one.
pub fn ending(rng: &mut Rng) -> Vec<u8> {
    match rng.below(12) {
        0..=6 => rng.pick(&GOOD_ENDINGS).to_vec(),
        7 => {
            let mut spaces = vec![b' '; 3 + rng.below(40)];
            if rng.once_in(2) {
                spaces.push(0x00);
            }
            spaces
        }
        _ => rng.pick(&BAD_ENDINGS).to_vec(),
    }
}

/// A data area that is good, or nearly; one in four has an ending behind it.
pub fn text(rng: &mut Rng) -> Vec<u8> {
    let mut text = bare_text(rng);
    if rng.once_in(4) {
        text.extend(ending(rng));
    }
    text
}

/// A question by broadcast, or nearly, with every kind of tail; some have an ending behind it.
pub fn question(rng: &mut Rng) -> Vec<u8> {
    let mut text = match rng.below(10) {
        0..=3 => format!("STATget {}", rng.pick(&names())).into_bytes(),
        4..=5 => rng.pick(&QUESTIONS).as_bytes().to_vec(),
        6 => [b"STATget".to_vec(), ending(rng)].concat(),
        7..=8 => rng.pick(&NO_QUESTIONS).as_bytes().to_vec(),
        _ => {
            let count = rng.below(12);
            [b"STATget ".to_vec(), rng.bytes(count)].concat()
        }
    };
    if rng.once_in(10) {
        text = near_miss(rng, text);
    }
    if rng.once_in(5) {
        text.extend(ending(rng));
    }
    text
}

/// A data area that is good, or nearly, as it ends by itself.
fn bare_text(rng: &mut Rng) -> Vec<u8> {
    let good = match rng.below(24) {
        0..=3 => format!("STATset {} {}", rng.pick(&LEVELS), level(rng)),
        4..=6 => format!("STATset {} {}", rng.pick(&SHIFTS), shift(rng)),
        7..=8 => format!("STATset {}", rng.pick(&CHOICES)),
        9 => "STATset RESET".to_string(),
        10..=13 => format!(
            "STATset {} {}",
            rng.pick(&SWITCHES),
            rng.pick(&["ON", "OFF"])
        ),
        // Of the sets about one in six is of the flip: what one does depends on the one before it.
        14..=16 => format!("STATset {} {}", rng.pick(&FLIPS), rng.pick(&["ON", "OFF"])),
        17..=21 => format!("STATget {}", rng.pick(&names())),
        22 => format!("STATget {}", rng.pick(&FLIPS)),
        _ => rng.pick(&STRANGERS).to_string(),
    };
    let good = good.into_bytes();
    if rng.below(10) < 7 {
        good
    } else {
        near_miss(rng, good)
    }
}

/// Something close to a good data area.
fn near_miss(rng: &mut Rng, good: Vec<u8>) -> Vec<u8> {
    let mut text = good;
    let place = rng.below(text.len());
    match rng.below(16) {
        0 => text.push(b'\t'),
        1 => text.insert(0, 0x00),
        2 => text.insert(0, b' '),
        3 => text.insert(place, b' '),
        4 => text[place] = text[place].to_ascii_lowercase(),
        5 => text[place] = text[place].to_ascii_uppercase(),
        6 => text[place] = text[place].wrapping_add(1),
        7 => text[place] ^= 0x80,
        8 => text.truncate(place),
        9 => {
            text.remove(place);
        }
        10 => text.extend_from_slice(b" ON"),
        11 => {
            let at = text.iter().position(|byte| *byte == b' ').unwrap_or(0);
            text.insert(at, b' ');
        }
        12 => {
            let at = text.iter().rposition(|byte| *byte == b' ').unwrap_or(0);
            text[at] = rng.pick(b"\t\0\n_");
        }
        13 => text.insert(place, text[place]),
        14 => text.push(rng.byte()),
        _ => text[place] = rng.byte(),
    }
    text
}
