//! Document 01, "Answer numbers", and those of document 02.
//!
//! "Checks run in the order of the numbers, and the first that applies is given; each is given
//! only when its stated condition holds."

/// What the box says of a message, a configuration or an advert.
#[derive(Clone, Copy, Debug, PartialEq, Eq)]
pub enum Answer {
    /// 0: "carried out".
    CarriedOut,
    /// 1: "reply area under 512 bytes (advert writer: under 122)".
    AreaTooSmall,
    /// 2: "no panel with that link number, or it is of the other family".
    NoSuchPanel,
    /// 3: "too short to be a message, or wrong fixed length".
    WrongLength,
    /// 4: "not for us".
    NotForUs,
    /// 5: "envelope wrong", of an advert. Of a message, document 02, §8 says which part of it:
    /// [`Answer::WrongPart`].
    EnvelopeWrong,
    /// 6: "contents not understood".
    NotUnderstood,
    /// 7: "configuration breaks a rule of the first section".
    BadConfiguration,
    /// 8: status asked by broadcast (document 02, §5).
    StatusByBroadcast,
    /// 9 to 14: this part of a message's envelope is wrong (document 02, §8).
    WrongPart(Part),
}

/// Document 02, §8: "Support calls about number 5 take an evening. Split it for messages: request
/// byte, item, data length over 499, data length not matching, RS-232C byte count, RS-232C
/// checksum."
#[derive(Clone, Copy, Debug, PartialEq, Eq)]
pub enum Part {
    Request,
    Item,
    LengthOver499,
    LengthNotMatching,
    ByteCount,
    Checksum,
}

impl Answer {
    /// The number of the table's first column, or that a request of document 02 gives.
    pub fn number(self) -> u8 {
        match self {
            Answer::CarriedOut => 0,
            Answer::AreaTooSmall => 1,
            Answer::NoSuchPanel => 2,
            Answer::WrongLength => 3,
            Answer::NotForUs => 4,
            Answer::EnvelopeWrong => 5,
            Answer::NotUnderstood => 6,
            Answer::BadConfiguration => 7,
            Answer::StatusByBroadcast => 8,
            Answer::WrongPart(part) => part.number(),
        }
    }

    /// "With each goes the place of the first byte of the guilty field; other answers have place
    /// 0." The message has this many bytes, and its first stands at place 0.
    pub fn place(self, length: usize) -> usize {
        match self {
            Answer::WrongPart(part) => part.place(length),
            _ => 0,
        }
    }
}

impl Part {
    /// "Refusals: 9 request, 10 item, 11 over 499, 12 not matching, 13 byte count, 14 checksum".
    fn number(self) -> u8 {
        match self {
            Part::Request => 9,
            Part::Item => 10,
            Part::LengthOver499 => 11,
            Part::LengthNotMatching => 12,
            Part::ByteCount => 13,
            Part::Checksum => 14,
        }
    }

    /// Where the field begins in a message of this many bytes. All stand where document 01 lays them
    /// out, but for the checksum: it is the last byte, of six or more.
    fn place(self, length: usize) -> usize {
        match self {
            Part::Request => 8,
            Part::Item => 9,
            Part::LengthOver499 | Part::LengthNotMatching => 11,
            Part::ByteCount => 1,
            Part::Checksum => length - 1,
        }
    }
}

/// An answer together with the bytes that go back to the sender; no bytes when there is no reply.
#[derive(Clone, Debug, PartialEq, Eq)]
pub struct Reply {
    pub answer: Answer,
    pub bytes: Vec<u8>,
}

impl Reply {
    /// An answer with bytes behind it.
    pub fn new(answer: Answer, bytes: Vec<u8>) -> Reply {
        Reply { answer, bytes }
    }

    /// An answer that sends nothing.
    pub fn silent(answer: Answer) -> Reply {
        Reply::new(answer, Vec::new())
    }
}
