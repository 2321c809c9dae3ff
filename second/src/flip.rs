//! Document 02, §4, "One flip, three words": "The panel has a single flip: none, H, V or HV."

/// A word that speaks of the flip.
#[derive(Clone, Copy, Debug, PartialEq, Eq)]
pub enum FlipWord {
    FlipH,
    FlipV,
    FlipHv,
}

impl FlipWord {
    /// All three, in document 01's order.
    pub const ALL: [FlipWord; 3] = [FlipWord::FlipH, FlipWord::FlipV, FlipWord::FlipHv];

    pub fn name(self) -> &'static str {
        match self {
            FlipWord::FlipH => "FLIPH",
            FlipWord::FlipV => "FLIPV",
            FlipWord::FlipHv => "FLIPHV",
        }
    }
}

/// The flip of a panel: that of a word, or none.
#[derive(Clone, Copy, Debug, PartialEq, Eq)]
pub struct Flip(Option<FlipWord>);

impl Flip {
    /// Document 01 starts the three words OFF.
    pub const AT_START: Flip = Flip(None);

    /// "STATget of a flip word says ON for the one in force."
    pub fn is_on(self, word: FlipWord) -> bool {
        self.0 == Some(word)
    }

    /// "ON for a flip word makes it the panel's flip; OFF for it makes the flip none if that word's
    /// flip was in force, and changes nothing otherwise."
    pub fn turn(&mut self, word: FlipWord, on: bool) {
        if on {
            self.0 = Some(word);
        } else if self.is_on(word) {
            self.0 = None;
        }
    }
}
