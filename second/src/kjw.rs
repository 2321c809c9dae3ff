//! Document 01, "KJW (003)".
//!
//! "24 bytes: `*S`, type, four letters, 16 parameters, 0Ah." What the codes of the remote control
//! stand for is in [`crate::remote`].

use crate::answer::{Answer, Reply};
use crate::panel::{InputType, KSettings, Scene};
use crate::remote;

const FRAME: usize = 24;
const FOOTER: u8 = 0x0A;

type Letters = [u8; 4];
type Parameters = [u8; 16];

const ACCEPTED: Parameters = [b'0'; 16];
const REFUSED: Parameters = [b'F'; 16];
const ASKED: Parameters = [b'#'; 16];

/// A message on the KJW link of a K panel.
pub fn receive(settings: &mut KSettings, bytes: &[u8]) -> Reply {
    // "Other length: 3."
    if bytes.len() != FRAME {
        return Reply::silent(Answer::WrongLength);
    }
    // "Wrong `*S`, footer, or a type not C or E: 4."
    let kind = bytes[2];
    if &bytes[..2] != b"*S" || bytes[23] != FOOTER || !matches!(kind, b'C' | b'E') {
        return Reply::silent(Answer::NotForUs);
    }
    let mut letters: Letters = [0; 4];
    letters.copy_from_slice(&bytes[3..7]);
    let mut parameters: Parameters = [0; 16];
    parameters.copy_from_slice(&bytes[7..23]);

    let answer = if kind == b'C' {
        control(settings, &letters, &parameters)
    } else {
        enquire(settings, &letters, &parameters)
    };
    // "Reply is type A, same letters."
    match answer {
        Some(accepted) => {
            let mut reply = frame(b'A', &letters, &accepted.parameters);
            if let Some((letters, parameters)) = accepted.notice {
                reply.extend_from_slice(&frame(b'N', &letters, &parameters));
            }
            Reply::new(Answer::CarriedOut, reply)
        }
        None => Reply::new(Answer::NotUnderstood, frame(b'A', &letters, &REFUSED)),
    }
}

/// What goes back for an accepted frame: the answer's parameters, and a notice where there is one.
struct Accepted {
    parameters: Parameters,
    notice: Option<(Letters, Parameters)>,
}

fn frame(kind: u8, letters: &Letters, parameters: &Parameters) -> Vec<u8> {
    let mut bytes = vec![b'*', b'S', kind];
    bytes.extend_from_slice(letters);
    bytes.extend_from_slice(parameters);
    bytes.push(FOOTER);
    bytes
}

/// "An accepted control answers sixteen `0`; if it changed POWR, INPT, VOLU, AMUT or PMUT, one N
/// frame with the new value follows (48 bytes in all)."
fn control(
    settings: &mut KSettings,
    letters: &Letters,
    parameters: &Parameters,
) -> Option<Accepted> {
    let before = settings.clone();
    // "TPOW and TPMU with sixteen `#` (notice names POWR or PMUT)".
    let named: Letters = match letters {
        b"POWR" => {
            settings.power = read_flag(parameters)?;
            *b"POWR"
        }
        b"AMUT" => {
            settings.audio_mute = read_flag(parameters)?;
            *b"AMUT"
        }
        b"PMUT" => {
            settings.picture_mute = read_flag(parameters)?;
            *b"PMUT"
        }
        b"TPOW" if parameters == &ASKED => {
            settings.power = !settings.power;
            *b"POWR"
        }
        b"TPMU" if parameters == &ASKED => {
            settings.picture_mute = !settings.picture_mute;
            *b"PMUT"
        }
        b"VOLU" => {
            settings.volume = read_volume(parameters)?;
            *b"VOLU"
        }
        b"INPT" => {
            (settings.input_type, settings.port) = read_input(parameters)?;
            *b"INPT"
        }
        b"SCEN" => {
            settings.scene = read_scene(parameters)?;
            *b"SCEN"
        }
        // Document 02, §6: "an unlisted code, or a parameter that isn't sixteen digits, is 6". The
        // notice has "the state's own letters"; where there is no state, nothing changes.
        b"IRCC" => {
            let button = remote::button(read_decimal(parameters)?)?;
            remote::press(settings, button).unwrap_or(*letters)
        }
        _ => return None,
    };
    // SCEN is not among the settings that a notice follows.
    let notice = if *settings != before && &named != b"SCEN" {
        Some((named, value(settings, &named)?))
    } else {
        None
    };
    Some(Accepted {
        parameters: ACCEPTED,
        notice,
    })
}

/// "E, with sixteen `#`: POWR, AMUT, PMUT, VOLU, INPT, SCEN, answered in the control's layout."
fn enquire(settings: &KSettings, letters: &Letters, parameters: &Parameters) -> Option<Accepted> {
    if parameters != &ASKED {
        return None;
    }
    Some(Accepted {
        parameters: value(settings, letters)?,
        notice: None,
    })
}

/// The present value in the control's layout. "In PMUT notices 1 means enabled, against 003."
fn value(settings: &KSettings, letters: &Letters) -> Option<Parameters> {
    match letters {
        b"POWR" => Some(write_number(u32::from(settings.power))),
        b"AMUT" => Some(write_number(u32::from(settings.audio_mute))),
        b"PMUT" => Some(write_number(u32::from(settings.picture_mute))),
        b"VOLU" => Some(write_number(u32::from(settings.volume))),
        b"INPT" => {
            let mut parameters = write_number(u32::from(settings.port));
            parameters[7] = settings.input_type.digit();
            Some(parameters)
        }
        b"SCEN" => Some(padded(settings.scene)),
        _ => None,
    }
}

/// A number in sixteen decimal digits.
fn write_number(number: u32) -> Parameters {
    let mut parameters = [b'0'; 16];
    let mut rest = number;
    for place in parameters.iter_mut().rev() {
        *place = b'0' + (rest % 10) as u8;
        rest /= 10;
    }
    parameters
}

/// "POWR, AMUT, PMUT with fifteen `0` and 0 or 1".
fn read_flag(parameters: &Parameters) -> Option<bool> {
    match parameters {
        b"0000000000000000" => Some(false),
        b"0000000000000001" => Some(true),
        _ => None,
    }
}

/// "VOLU, 16 decimal digits, 0 to 100 (house)".
fn read_volume(parameters: &Parameters) -> Option<u8> {
    let volume = read_decimal(parameters)?;
    u8::try_from(volume).ok().filter(|volume| *volume <= 100)
}

/// "INPT is seven `0`, type 1, 3, 4 or 5, four `0`, port 0001 to 9999".
fn read_input(parameters: &Parameters) -> Option<(InputType, u16)> {
    if &parameters[..7] != b"0000000" || &parameters[8..12] != b"0000" {
        return None;
    }
    let input_type = InputType::from_digit(parameters[7])?;
    let port = u16::try_from(read_decimal(&parameters[12..])?).ok()?;
    (port != 0).then_some((input_type, port))
}

/// At most sixteen decimal digits.
fn read_decimal(digits: &[u8]) -> Option<u64> {
    digits.iter().try_fold(0, |number: u64, digit| {
        digit
            .is_ascii_digit()
            .then(|| number * 10 + u64::from(digit - b'0'))
    })
}

/// "SCEN `auto`, `auto24pSync` or `general`, padded with `#`."
fn read_scene(parameters: &Parameters) -> Option<Scene> {
    Scene::ALL
        .into_iter()
        .find(|scene| padded(*scene) == *parameters)
}

fn padded(scene: Scene) -> Parameters {
    let mut parameters = [b'#'; 16];
    let name = scene.name().as_bytes();
    parameters[..name.len()].copy_from_slice(name);
    parameters
}
