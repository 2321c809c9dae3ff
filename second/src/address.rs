//! Who a message is for.
//!
//! Document 01, "SDCP and VMC", Addressing: "TCP: 0/0 is the link's own panel; 1..99/1..99 is the
//! W panel with that pair. UDP: 1..99/FFh is every W panel of that group; FFh/FFh every W panel.
//! All else addresses nobody. The header and way in decide this; nothing after byte 7 does. An
//! RS-232C or KJW message is addressed to the panel of its link."

use crate::config::DisplayBox;
use crate::panel::{GroupId, UnitId};

/// The way in of a message, with the link's number where it has one.
#[derive(Clone, Copy, Debug, PartialEq, Eq)]
pub enum WayIn {
    Rs232c(u32),
    Kjw(u32),
    Tcp(u32),
    Udp,
}

/// "version 03h, category 0Bh, community "SONY"".
const SDCP_START: &[u8] = b"\x03\x0BSONY";

const ALL: u8 = 0xFF;

/// The places of the panels that a message is for.
///
/// It reads the way in and bytes 0 to 7; a shorter SDCP message, or one with a wrong version,
/// category or community, addresses nobody (docs/DECISIONS.md).
pub fn addressed(held: &DisplayBox, way: WayIn, bytes: &[u8]) -> Vec<usize> {
    match way {
        WayIn::Rs232c(link) => own_panel(held, link, true),
        WayIn::Kjw(link) => own_panel(held, link, false),
        WayIn::Tcp(link) => match sdcp_header(bytes) {
            Some((group, unit)) => by_tcp(held, link, group, unit),
            None => Vec::new(),
        },
        WayIn::Udp => match sdcp_header(bytes) {
            Some((group, unit)) => by_udp(held, group, unit),
            None => Vec::new(),
        },
    }
}

/// The panel of the link, where it is of the family that speaks there.
fn own_panel(held: &DisplayBox, link: u32, w: bool) -> Vec<usize> {
    held.place_of_link(link)
        .into_iter()
        .filter(|place| held.panels[*place].is_w() == w)
        .collect()
}

/// The group and unit of a message that begins as an SDCP message of ours.
fn sdcp_header(bytes: &[u8]) -> Option<(GroupId, UnitId)> {
    match bytes.strip_prefix(SDCP_START) {
        Some([group, unit, ..]) => Some((GroupId(*group), UnitId(*unit))),
        _ => None,
    }
}

fn by_tcp(held: &DisplayBox, link: u32, group: GroupId, unit: UnitId) -> Vec<usize> {
    match (group.0, unit.0) {
        (0, 0) => own_panel(held, link, true),
        (1..=99, 1..=99) => w_panels(held, Some(group), Some(unit)),
        _ => Vec::new(),
    }
}

fn by_udp(held: &DisplayBox, group: GroupId, unit: UnitId) -> Vec<usize> {
    match (group.0, unit.0) {
        (1..=99, ALL) => w_panels(held, Some(group), None),
        (ALL, ALL) => w_panels(held, None, None),
        _ => Vec::new(),
    }
}

/// The W panels of this group and this unit, where they are asked for.
fn w_panels(held: &DisplayBox, group: Option<GroupId>, unit: Option<UnitId>) -> Vec<usize> {
    let fits = |place: &usize| {
        let panel = &held.panels[*place];
        panel.is_w()
            && group.is_none_or(|wanted| panel.group == wanted)
            && unit.is_none_or(|wanted| panel.unit == wanted)
    };
    (0..held.panels.len()).filter(fits).collect()
}
