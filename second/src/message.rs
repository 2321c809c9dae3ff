//! A message to the box: checks 1 and 2, the way to each protocol, and the reply area.
//!
//! Document 01, "The box and its messages": "A message is a byte string with its way in: RS-232C
//! port of panel p, KJW link of panel p, SDCP by TCP on the link of panel p, or SDCP by UDP. All
//! but UDP come with a lent reply area."

use crate::answer::{Answer, Reply};
use crate::config::DisplayBox;
use crate::panel::Settings;
use crate::{kjw, rs232c, sdcp};

/// 1: "reply area under 512 bytes".
pub const SMALLEST_AREA: usize = 512;

/// The way in of a message, with what comes with it.
#[derive(Debug)]
pub enum Way<'a> {
    Rs232c { link: u32, area: &'a mut [u8] },
    Kjw { link: u32, area: &'a mut [u8] },
    Tcp { link: u32, area: &'a mut [u8] },
    Udp,
}

/// What became of a message.
#[derive(Clone, Copy, Debug, PartialEq, Eq)]
pub struct Outcome {
    pub answer: Answer,
    /// Where the guilty field begins in the message (document 02, §8); 0 for answers that have none.
    pub place: usize,
    /// How many bytes of the area's front were written.
    pub written: usize,
}

/// Hands a message to the box.
///
/// "A box handed in that breaks these rules, or holds a setting outside its range below, is
/// answered as a box of no panels and given back as it came."
pub fn receive(held: &mut DisplayBox, way: Way<'_>, bytes: &[u8]) -> Outcome {
    let (answer, written) = if held.keeps_the_rules() {
        receive_in_good_box(held, way, bytes)
    } else {
        receive_in_good_box(&mut DisplayBox::of_no_panels(), way, bytes)
    };
    Outcome {
        answer,
        place: answer.place(bytes.len()),
        written,
    }
}

/// The answer, and how many bytes of the area's front were written.
fn receive_in_good_box(held: &mut DisplayBox, way: Way<'_>, bytes: &[u8]) -> (Answer, usize) {
    match way {
        Way::Rs232c { link, area } => with_area(area, || match settings_of(held, link) {
            Some(Settings::W(settings)) => rs232c::receive(settings, bytes),
            _ => Reply::silent(Answer::NoSuchPanel),
        }),
        Way::Kjw { link, area } => with_area(area, || match settings_of(held, link) {
            Some(Settings::K(settings)) => kjw::receive(settings, bytes),
            _ => Reply::silent(Answer::NoSuchPanel),
        }),
        // "Check 2 looks at the link's panel alone" (docs/DECISIONS.md).
        Way::Tcp { link, area } => with_area(area, || match settings_of(held, link) {
            Some(Settings::W(_)) => sdcp::receive_by_tcp(held, link, bytes),
            _ => Reply::silent(Answer::NoSuchPanel),
        }),
        // "UDP skips 1 and 2."
        Way::Udp => (sdcp::receive_by_udp(held, bytes), 0),
    }
}

/// The settings of the panel with this link number.
fn settings_of(held: &mut DisplayBox, link: u32) -> Option<&mut Settings> {
    let place = held.place_of_link(link)?;
    Some(&mut held.panels[place].settings)
}

/// Check 1, then the message itself, then its reply: "A reply fills the front of the area; bytes
/// after it keep what they held, and the reply's length is returned (0 when there is none)."
fn with_area(area: &mut [u8], carry_out: impl FnOnce() -> Reply) -> (Answer, usize) {
    if area.len() < SMALLEST_AREA {
        return (Answer::AreaTooSmall, 0);
    }
    let reply = carry_out();
    let written = reply.bytes.len();
    area[..written].copy_from_slice(&reply.bytes);
    (reply.answer, written)
}
