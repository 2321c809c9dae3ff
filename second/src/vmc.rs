//! Document 01, "SDCP and VMC (001, 002, 004)": the words in the data area.
//!
//! "Words are capitals-sensitive with one space between". "A word that should be a number and is
//! none ends the reading with 6." What a console may put behind them is in document 02, §2.

use crate::flip::FlipWord;
use crate::panel::{Mode, Ntsc, RgbRange, Switch, WSettings};

/// An understood data area.
#[derive(Clone, Copy, Debug, PartialEq, Eq)]
pub enum Order {
    Set(Change),
    Get(Name),
}

/// What a STATset changes.
#[derive(Clone, Copy, Debug, PartialEq, Eq)]
pub enum Change {
    Phase(u8),
    Chroma(u8),
    Volume(u8),
    ShiftH(i8),
    ShiftV(i8),
    Mode(Mode),
    Ntsc(Ntsc),
    RgbRange(RgbRange),
    Reset,
    Switch(Switch, bool),
    Flip(FlipWord, bool),
}

/// What a STATget asks for.
#[derive(Clone, Copy, Debug, PartialEq, Eq)]
pub enum Name {
    Phase,
    Chroma,
    Volume,
    ShiftH,
    ShiftV,
    Mode,
    Ntsc,
    RgbRange,
    Switch(Switch),
    Flip(FlipWord),
}

impl Name {
    /// Every name that STATget takes, in the document's order.
    pub fn all() -> Vec<Name> {
        let mut names = vec![
            Name::Phase,
            Name::Chroma,
            Name::Volume,
            Name::ShiftH,
            Name::ShiftV,
            Name::Mode,
            Name::Ntsc,
            Name::RgbRange,
        ];
        names.extend(Switch::ALL.into_iter().map(Name::Switch));
        names.extend(FlipWord::ALL.into_iter().map(Name::Flip));
        names
    }
}

/// Document 02, §2, "Consoles that end their strings": "Before words are split, one final 00h is
/// taken off if there, then all spaces at the end."
///
/// Only 20h is a space (docs/DECISIONS.md).
pub fn trimmed(data: &[u8]) -> &[u8] {
    let mut rest = data.strip_suffix(b"\0").unwrap_or(data);
    while let Some(shorter) = rest.strip_suffix(b" ") {
        rest = shorter;
    }
    rest
}

/// Reads a data area; nothing where it is not understood: "Any other data is 6", and "judged after
/// the trimming".
///
/// A space parts two words, so a space too many makes an empty word, and no word is empty. "Data of
/// spaces alone, or of none, is not understood": it is one empty word.
pub fn read(data: &[u8]) -> Option<Order> {
    let words: Vec<&[u8]> = trimmed(data).split(|byte| *byte == b' ').collect();
    match words.as_slice() {
        [b"STATset", rest @ ..] => read_change(rest).map(Order::Set),
        [b"STATget", rest @ ..] => read_name(rest).map(Order::Get),
        _ => None,
    }
}

/// Document 02, §5: "the trimmed data is STATget alone or begins with STATget and a space".
///
/// Whatever follows the space: it need not be a name (docs/DECISIONS.md).
pub fn asks_for_status(data: &[u8]) -> bool {
    let data = trimmed(data);
    data == b"STATget" || data.starts_with(b"STATget ")
}

/// "STATset takes: PHASE, CHROMA or VOLUME with 0 to 100 ...; SHIFTH or SHIFTV with -30 to +30
/// ...; MODE0, MODE1, MODE2; NTSC0, NTSC75; RGB RANGE FULL or LIMITED; RESET ...; and ON or OFF
/// after REMOTE, ..."
fn read_change(words: &[&[u8]]) -> Option<Change> {
    match words {
        [b"PHASE", number] => read_level(number).map(Change::Phase),
        [b"CHROMA", number] => read_level(number).map(Change::Chroma),
        [b"VOLUME", number] => read_level(number).map(Change::Volume),
        [b"SHIFTH", number] => read_shift(number).map(Change::ShiftH),
        [b"SHIFTV", number] => read_shift(number).map(Change::ShiftV),
        [b"MODE0"] => Some(Change::Mode(Mode::Mode0)),
        [b"MODE1"] => Some(Change::Mode(Mode::Mode1)),
        [b"MODE2"] => Some(Change::Mode(Mode::Mode2)),
        [b"NTSC0"] => Some(Change::Ntsc(Ntsc::Ntsc0)),
        [b"NTSC75"] => Some(Change::Ntsc(Ntsc::Ntsc75)),
        [b"RGB", b"RANGE", b"FULL"] => Some(Change::RgbRange(RgbRange::Full)),
        [b"RGB", b"RANGE", b"LIMITED"] => Some(Change::RgbRange(RgbRange::Limited)),
        [b"RESET"] => Some(Change::Reset),
        [name @ .., b"ON"] => read_turn(name, true),
        [name @ .., b"OFF"] => read_turn(name, false),
        _ => None,
    }
}

/// ON or OFF for the switch, or for the flip word, whose name these words are.
fn read_turn(words: &[&[u8]], on: bool) -> Option<Change> {
    match read_flip_word(words) {
        Some(word) => Some(Change::Flip(word, on)),
        None => read_switch(words).map(|switch| Change::Switch(switch, on)),
    }
}

/// "STATget takes one of those names (MODE, NTSC and RGB RANGE for the choices; no RESET)."
fn read_name(words: &[&[u8]]) -> Option<Name> {
    match words {
        [b"PHASE"] => Some(Name::Phase),
        [b"CHROMA"] => Some(Name::Chroma),
        [b"VOLUME"] => Some(Name::Volume),
        [b"SHIFTH"] => Some(Name::ShiftH),
        [b"SHIFTV"] => Some(Name::ShiftV),
        [b"MODE"] => Some(Name::Mode),
        [b"NTSC"] => Some(Name::Ntsc),
        [b"RGB", b"RANGE"] => Some(Name::RgbRange),
        name => match read_flip_word(name) {
            Some(word) => Some(Name::Flip(word)),
            None => read_switch(name).map(Name::Switch),
        },
    }
}

/// The switch whose name these words are.
fn read_switch(words: &[&[u8]]) -> Option<Switch> {
    let name = words.join(&b' ');
    Switch::ALL
        .into_iter()
        .find(|switch| switch.name().as_bytes() == name)
}

/// The flip word that these words are.
fn read_flip_word(words: &[&[u8]]) -> Option<FlipWord> {
    let [name] = words else {
        return None;
    };
    FlipWord::ALL
        .into_iter()
        .find(|word| word.name().as_bytes() == *name)
}

/// "0 to 100 (no sign, no leading zero)".
fn read_level(word: &[u8]) -> Option<u8> {
    let level = read_digits(word)?;
    u8::try_from(level).ok().filter(|level| *level <= 100)
}

/// "-30 to +30 (sign allowed save before 0, no leading zero)".
fn read_shift(word: &[u8]) -> Option<i8> {
    let (signed, negative, digits) = match word {
        [b'+', digits @ ..] => (true, false, digits),
        [b'-', digits @ ..] => (true, true, digits),
        digits => (false, false, digits),
    };
    let size = i8::try_from(read_digits(digits)?).ok()?;
    if size > 30 || signed && size == 0 {
        return None;
    }
    Some(if negative { -size } else { size })
}

/// A decimal number without sign or leading zero. One too large to hold is none: it is out of
/// every range, and "is never reduced" (docs/DECISIONS.md).
fn read_digits(word: &[u8]) -> Option<u32> {
    match word {
        [] | [b'0', _, ..] => return None,
        _ => {}
    }
    let mut number: u32 = 0;
    for byte in word {
        if !byte.is_ascii_digit() {
            return None;
        }
        number = number
            .checked_mul(10)?
            .checked_add(u32::from(byte - b'0'))?;
    }
    Some(number)
}

/// Makes the change stand in the record.
pub fn set(settings: &mut WSettings, change: Change) {
    match change {
        Change::Phase(level) => settings.phase = level,
        Change::Chroma(level) => settings.chroma = level,
        Change::Volume(level) => settings.volume = level,
        Change::ShiftH(shift) => settings.shift_h = shift,
        Change::ShiftV(shift) => settings.shift_v = shift,
        Change::Mode(mode) => settings.mode = mode,
        Change::Ntsc(ntsc) => settings.ntsc = ntsc,
        Change::RgbRange(range) => settings.rgb_range = range,
        // "RESET (both shifts to 0, house)".
        Change::Reset => {
            settings.shift_h = 0;
            settings.shift_v = 0;
        }
        Change::Switch(switch, on) => settings.turn(switch, on),
        Change::Flip(word, on) => settings.flip.turn(word, on),
    }
}

/// "OK carries the words that would set the present value, as `VOLUME 40`, `MODE2`, `CAMERA FOCUS
/// OFF`, `SHIFTH +5`, `SHIFTH 0` (house)."
pub fn words(settings: &WSettings, name: Name) -> String {
    match name {
        Name::Phase => format!("PHASE {}", settings.phase),
        Name::Chroma => format!("CHROMA {}", settings.chroma),
        Name::Volume => format!("VOLUME {}", settings.volume),
        Name::ShiftH => format!("SHIFTH {}", shift_text(settings.shift_h)),
        Name::ShiftV => format!("SHIFTV {}", shift_text(settings.shift_v)),
        Name::Mode => match settings.mode {
            Mode::Mode0 => "MODE0".to_string(),
            Mode::Mode1 => "MODE1".to_string(),
            Mode::Mode2 => "MODE2".to_string(),
        },
        Name::Ntsc => match settings.ntsc {
            Ntsc::Ntsc0 => "NTSC0".to_string(),
            Ntsc::Ntsc75 => "NTSC75".to_string(),
        },
        Name::RgbRange => match settings.rgb_range {
            RgbRange::Full => "RGB RANGE FULL".to_string(),
            RgbRange::Limited => "RGB RANGE LIMITED".to_string(),
        },
        Name::Switch(switch) => on_or_off(switch.name(), settings.is_on(switch)),
        Name::Flip(word) => on_or_off(word.name(), settings.flip.is_on(word)),
    }
}

fn on_or_off(name: &str, on: bool) -> String {
    format!("{name} {}", if on { "ON" } else { "OFF" })
}

/// A shift with its sign, save 0.
fn shift_text(shift: i8) -> String {
    if shift > 0 {
        format!("+{shift}")
    } else {
        shift.to_string()
    }
}

#[cfg(test)]
mod tests {
    use super::*;

    // "one final 00h is taken off if there, then all spaces at the end": no other byte, none at the
    // front, none between the words.
    #[test]
    fn what_is_trimmed() {
        let tried: [(&[u8], &[u8]); 21] = [
            (b"", b""),
            (b" ", b""),
            (b"  ", b""),
            (b"\0", b""),
            (b" \0", b""),
            (b"\0\0", b"\0"),
            (b"\0 ", b"\0"),
            (b"40", b"40"),
            (b"40 ", b"40"),
            (b"40  ", b"40"),
            (b"40\0", b"40"),
            (b"40 \0", b"40"),
            (b"40  \0", b"40"),
            (b"40\0 ", b"40\0"),
            (b"40\0\0", b"40\0"),
            (b"40 \0 ", b"40 \0"),
            (b"40\t", b"40\t"),
            (b"40 \t", b"40 \t"),
            (b"40\x01", b"40\x01"),
            (b" 40", b" 40"),
            (b"\0A  B", b"\0A  B"),
        ];
        for (data, left) in tried {
            assert_eq!(trimmed(data), left, "{data:?}");
        }
    }

    // Status is asked by `STATget` alone, or with a space and anything behind it, after the trimming.
    #[test]
    fn what_asks_for_status() {
        for data in [
            &b"STATget"[..],
            b"STATget ",
            b"STATget\0",
            b"STATget  \0",
            b"STATget VOLUME",
            b"STATget VOLUME \0",
            b"STATget VOLUME\t",
            b"STATget LOUDNESS",
            b"STATget  VOLUME",
            b"STATget \t",
            b"STATget \0 ",
            b"STATget \0\0",
        ] {
            assert!(asks_for_status(data), "{data:?}");
        }
        for data in [
            &b""[..],
            b" ",
            b"STATge",
            b"STATge ",
            b"STATgetVOLUME",
            b"STATgets VOLUME",
            b"STATget\tVOLUME",
            b"STATget\0VOLUME",
            b"STATget\0 ",
            b"STATget\0\0",
            b" STATget",
            b" STATget VOLUME",
            b"statget VOLUME",
            b"STATGET VOLUME",
            b"STATset STATget VOLUME",
            b"STATset VOLUME 40",
        ] {
            assert!(!asks_for_status(data), "{data:?}");
        }
    }

    // Every byte alone behind the words: 20h and 00h are taken off.
    #[test]
    fn no_other_byte_is_trimmed() {
        for byte in 0..=255 {
            let data = [b'A', byte];
            let left: &[u8] = if byte == 0x20 || byte == 0x00 {
                b"A"
            } else {
                &data
            };
            assert_eq!(trimmed(&data), left);
        }
    }
}
