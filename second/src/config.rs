//! The box and its configuration.
//!
//! Document 01, "The box and its messages": "A box holds 1 to 8 panels, numbered from 1 in the
//! order given; that is also the link number. ... no two W panels share both."

use crate::answer::Answer;
use crate::panel::{GroupId, KSettings, Panel, Settings, UnitId, WSettings};

/// The most panels that a box holds.
pub const MOST_PANELS: usize = 8;

/// The box: its panels, panel 1 first.
#[derive(Clone, Debug, Default, PartialEq, Eq)]
pub struct DisplayBox {
    pub panels: Vec<Panel>,
}

impl DisplayBox {
    /// The box of no panels.
    pub fn of_no_panels() -> DisplayBox {
        DisplayBox::default()
    }

    /// "A box handed in that breaks these rules, or holds a setting outside its range below, is
    /// answered as a box of no panels". A box of no panels comes to the same either way.
    pub fn keeps_the_rules(&self) -> bool {
        (1..=MOST_PANELS).contains(&self.panels.len())
            && self.panels.iter().all(Panel::keeps_the_rules)
            && !self.two_w_panels_share_both()
    }

    fn two_w_panels_share_both(&self) -> bool {
        self.panels.iter().enumerate().any(|(place, panel)| {
            self.panels[..place].iter().any(|other| {
                panel.is_w()
                    && other.is_w()
                    && panel.group == other.group
                    && panel.unit == other.unit
            })
        })
    }

    /// The place of the panel with this link number: link 1 is the first panel.
    pub fn place_of_link(&self, link: u32) -> Option<usize> {
        let place = usize::try_from(link).ok()?.checked_sub(1)?;
        (place < self.panels.len()).then_some(place)
    }

    /// The panel with this link number.
    pub fn panel(&self, link: u32) -> Option<&Panel> {
        self.place_of_link(link).map(|place| &self.panels[place])
    }
}

/// A new box from its description: three bytes a panel, the family (`W` or `K`), the group, the
/// unit (docs/DECISIONS.md).
///
/// 7: "configuration breaks a rule of the first section", and the box is "a box of no panels".
pub fn configure(description: &[u8]) -> (Answer, DisplayBox) {
    match described(description) {
        Some(new_box) if new_box.keeps_the_rules() => (Answer::CarriedOut, new_box),
        _ => (Answer::BadConfiguration, DisplayBox::of_no_panels()),
    }
}

/// The box that the description speaks of, good or bad; nothing where it is no description.
fn described(description: &[u8]) -> Option<DisplayBox> {
    if !description.len().is_multiple_of(3) {
        return None;
    }
    let mut panels = Vec::new();
    for entry in description.chunks_exact(3) {
        let settings = match entry[0] {
            b'W' => Settings::W(WSettings::at_start()),
            b'K' => Settings::K(KSettings::at_start()),
            _ => return None,
        };
        panels.push(Panel {
            group: GroupId(entry[1]),
            unit: UnitId(entry[2]),
            settings,
        });
    }
    Some(DisplayBox { panels })
}
