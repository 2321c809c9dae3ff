//! Document 02, §6, "The remote control codes": "Take IRCC controls, sixteen decimal digits, with
//! every code in document 003's table."

use crate::panel::{InputType, KSettings};

/// Document 003's table, in its order: the button and its code. "Document 003 calls them two hex
/// digits, but its codes reach 130, so decimal decides."
pub const TABLE: [(&str, u64); 57] = [
    ("Display", 5),
    ("Home", 6),
    ("Options", 7),
    ("Return", 8),
    ("Up", 9),
    ("Down", 10),
    ("Right", 11),
    ("Left", 12),
    ("Confirm", 13),
    ("Red", 14),
    ("Green", 15),
    ("Yellow", 16),
    ("Blue", 17),
    ("Num1", 18),
    ("Num2", 19),
    ("Num3", 20),
    ("Num4", 21),
    ("Num5", 22),
    ("Num6", 23),
    ("Num7", 24),
    ("Num8", 25),
    ("Num9", 26),
    ("Num0", 27),
    ("Volume Up", 30),
    ("Volume Down", 31),
    ("Mute", 32),
    ("Channel Up", 33),
    ("Channel Down", 34),
    ("Subtitle", 35),
    ("DOT", 38),
    ("Picture Off", 50),
    ("Wide", 61),
    ("Jump", 62),
    ("Sync Menu", 76),
    ("Forward", 77),
    ("Play", 78),
    ("Rewind", 79),
    ("Prev", 80),
    ("Stop", 81),
    ("Next", 82),
    ("Pause", 84),
    ("Flash Plus", 86),
    ("Flash Minus", 87),
    ("TV Power", 98),
    ("Audio", 99),
    ("Input", 101),
    ("Sleep", 104),
    ("Sleep Timer", 105),
    ("Video 2", 108),
    ("Picture Mode", 110),
    ("Demo Surround", 121),
    ("HDMI 1", 124),
    ("HDMI 2", 125),
    ("HDMI 3", 126),
    ("HDMI 4", 127),
    ("Action Menu", 129),
    ("Help", 130),
];

/// The button with this code; nothing where the code is not listed.
pub fn button(code: u64) -> Option<&'static str> {
    let listed = TABLE.iter().find(|(_, listed)| *listed == code);
    listed.map(|(button, _)| *button)
}

/// Does what the button says, and gives the letters of the state that it is for. "Other listed codes
/// are answered and change nothing": they have no state.
pub fn press(settings: &mut KSettings, button: &str) -> Option<[u8; 4]> {
    match button {
        // "Volume Up and Down move by one and stop at 0 and 100".
        "Volume Up" => {
            settings.volume = (settings.volume + 1).min(100);
            Some(*b"VOLU")
        }
        "Volume Down" => {
            settings.volume = settings.volume.saturating_sub(1);
            Some(*b"VOLU")
        }
        // "Mute flips AMUT; Picture Off flips PMUT; TV Power flips POWR".
        "Mute" => {
            settings.audio_mute = !settings.audio_mute;
            Some(*b"AMUT")
        }
        "Picture Off" => {
            settings.picture_mute = !settings.picture_mute;
            Some(*b"PMUT")
        }
        "TV Power" => {
            settings.power = !settings.power;
            Some(*b"POWR")
        }
        "HDMI 1" => hdmi(settings, 1),
        "HDMI 2" => hdmi(settings, 2),
        "HDMI 3" => hdmi(settings, 3),
        "HDMI 4" => hdmi(settings, 4),
        _ => None,
    }
}

/// "HDMI 1 to 4 choose type 1 and that port."
fn hdmi(settings: &mut KSettings, port: u16) -> Option<[u8; 4]> {
    settings.input_type = InputType::Hdmi;
    settings.port = port;
    Some(*b"INPT")
}

#[cfg(test)]
mod tests {
    use super::*;

    // 57 codes from 5 to 130, each above the one before it, so that none is there twice.
    #[test]
    fn the_table() {
        assert_eq!(TABLE.len(), 57);
        assert_eq!((TABLE[0].1, TABLE[56].1), (5, 130));
        assert!(TABLE.windows(2).all(|two| two[0].1 < two[1].1));
        for (place, (name, _)) in TABLE.iter().enumerate() {
            assert!(TABLE[..place].iter().all(|(other, _)| other != name));
        }
    }

    // The numbers from 0 to 140 that are not listed, counted off the table by hand.
    #[test]
    fn what_is_not_listed() {
        let gaps = [
            0..=4,
            28..=29,
            36..=37,
            39..=49,
            51..=60,
            63..=75,
            83..=83,
            85..=85,
            88..=97,
            100..=100,
            102..=103,
            106..=107,
            109..=109,
            111..=120,
            122..=123,
            128..=128,
            131..=140,
        ];
        for code in 0..=140 {
            let missing = gaps.iter().any(|gap| gap.contains(&code));
            assert_eq!(button(code).is_none(), missing, "{code}");
        }
        for code in [256 + 30, 1030, 65_536 + 30, 9_999_999_999_999_999, u64::MAX] {
            assert_eq!(button(code), None);
        }
    }

    // The buttons that are for a state, and no others.
    #[test]
    fn buttons_with_a_state() {
        let with_state = [30, 31, 32, 50, 98, 124, 125, 126, 127];
        for (name, code) in TABLE {
            let mut settings = KSettings::at_start();
            let letters = press(&mut settings, name);
            assert_eq!(letters.is_some(), with_state.contains(&code), "{name}");
            if letters.is_none() {
                assert_eq!(settings, KSettings::at_start(), "{name}");
            }
        }
    }
}
