//! Document 02, §1, "SDCP off the wire": the receiver of a TCP link.
//!
//! "We want a receiver for each TCP link that takes pieces cut anywhere and gives whole packets,
//! one a call; a call takes no byte past what it hands out and says how many it took; one that
//! hands out nothing has taken the whole piece."
//!
//! It is a plain byte machine. Each byte in its turn, first those of the record and then those of
//! the piece, goes behind the bytes at hand. The bytes at hand always begin a packet, or could:
//! where they no longer do, the first of them are dropped, and where they are a whole packet, they
//! are handed out.

/// "It holds at most 512 bytes."
pub const MOST_HELD: usize = 512;

/// "03h 0Bh "SONY"".
const FRONT: &[u8] = b"\x03\x0BSONY";

/// "with 13 bytes it knows the length".
const HEADER: usize = 13;

/// "With a length over 499".
const MOST_DATA: usize = 499;

/// "The receiver's record is lent by the caller and updated there": so anything may stand in it.
#[derive(Clone, Debug, PartialEq, Eq)]
pub struct Receiver {
    pub store: [u8; MOST_HELD],
    /// How many bytes it claims to hold, at the store's front.
    pub held: usize,
}

/// What a call did.
#[derive(Clone, Debug, PartialEq, Eq)]
pub struct Call {
    /// What it handed out.
    pub packet: Option<Vec<u8>>,
    /// How many bytes of the piece it took.
    pub taken: usize,
}

impl Default for Receiver {
    fn default() -> Receiver {
        Receiver::empty()
    }
}

impl Receiver {
    /// A receiver that holds nothing.
    pub fn empty() -> Receiver {
        Receiver {
            store: [0; MOST_HELD],
            held: 0,
        }
    }

    /// One call with a piece.
    pub fn take(&mut self, piece: &[u8]) -> Call {
        // "one that claims to hold more is emptied first".
        if self.held > MOST_HELD {
            *self = Receiver::empty();
        }
        let held = self.store[..self.held].to_vec();
        let mut at_hand = Vec::new();
        // "bytes held are read before the piece". What is handed out here leaves the piece and the
        // bytes held behind it as they are: "a call takes no byte past what it hands out".
        for (place, byte) in held.iter().enumerate() {
            if let Some(packet) = read(&mut at_hand, *byte) {
                self.hold(&held[place + 1..]);
                return Call {
                    packet: Some(packet),
                    taken: 0,
                };
            }
        }
        for (place, byte) in piece.iter().enumerate() {
            if let Some(packet) = read(&mut at_hand, *byte) {
                self.hold(&[]);
                return Call {
                    packet: Some(packet),
                    taken: place + 1,
                };
            }
        }
        // "one that hands out nothing has taken the whole piece".
        self.hold(&at_hand);
        Call {
            packet: None,
            taken: piece.len(),
        }
    }

    /// "after each call its store is 0 behind the bytes held".
    fn hold(&mut self, bytes: &[u8]) {
        self.store = [0; MOST_HELD];
        self.store[..bytes.len()].copy_from_slice(bytes);
        self.held = bytes.len();
    }
}

/// Puts a byte behind those at hand; what they are with it, where that is to be handed out.
fn read(at_hand: &mut Vec<u8>, byte: u8) -> Option<Vec<u8>> {
    at_hand.push(byte);
    // "It drops bytes one by one until the next bytes can begin 03h 0Bh "SONY"".
    while !can_begin_a_packet(at_hand) {
        at_hand.remove(0);
    }
    if whole_length(at_hand) == Some(at_hand.len()) {
        Some(std::mem::take(at_hand))
    } else {
        None
    }
}

/// As far as they go, they are the front of a packet; no bytes always can.
fn can_begin_a_packet(bytes: &[u8]) -> bool {
    bytes.iter().zip(FRONT).all(|(byte, wanted)| byte == wanted)
}

/// How many bytes are handed out of these and those that follow them, once that is known: "with 13
/// bytes it knows the length".
fn whole_length(bytes: &[u8]) -> Option<usize> {
    let header = bytes.get(..HEADER)?;
    let data = usize::from(u16::from_be_bytes([header[11], header[12]]));
    if data > MOST_DATA {
        // "just those 13 bytes are handed out as a message".
        Some(HEADER)
    } else {
        // "Other packets are handed out whole, addressed or not."
        Some(HEADER + data)
    }
}

/// A test for each sentence of §1. Those with a record that a script cannot make are here alone:
/// in a script a receiver holds what its own calls left there.
#[cfg(test)]
mod tests {
    use super::*;

    /// A packet that says this length and has this data behind it.
    fn saying(length: u16, data: &[u8]) -> Vec<u8> {
        let mut bytes = b"\x03\x0BSONY\x00\x00\x00\xB0\x00".to_vec();
        bytes.extend_from_slice(&length.to_be_bytes());
        bytes.extend_from_slice(data);
        bytes
    }

    fn packet(data: &[u8]) -> Vec<u8> {
        saying(data.len() as u16, data)
    }

    /// A record that claims to hold these bytes, with other bytes behind them.
    fn holding(bytes: &[u8]) -> Receiver {
        let mut store = [0x03; MOST_HELD];
        store[..bytes.len()].copy_from_slice(bytes);
        Receiver {
            store,
            held: bytes.len(),
        }
    }

    fn out(packet: &[u8], taken: usize) -> Call {
        Call {
            packet: Some(packet.to_vec()),
            taken,
        }
    }

    fn nothing(taken: usize) -> Call {
        Call {
            packet: None,
            taken,
        }
    }

    /// Checks that the record holds exactly these bytes, and 0 behind them.
    fn holds(receiver: &Receiver, bytes: &[u8]) {
        assert_eq!(receiver.held, bytes.len());
        assert_eq!(receiver.store[..bytes.len()], *bytes);
        assert!(receiver.store[bytes.len()..].iter().all(|byte| *byte == 0));
    }

    // "takes pieces cut anywhere and gives whole packets".
    #[test]
    fn pieces_are_cut_anywhere() {
        let whole = packet(b"STATset VOLUME 40");
        for first in 0..whole.len() {
            for second in first..whole.len() {
                let mut receiver = Receiver::empty();
                assert_eq!(receiver.take(&whole[..first]), nothing(first));
                holds(&receiver, &whole[..first]);
                assert_eq!(
                    receiver.take(&whole[first..second]),
                    nothing(second - first)
                );
                holds(&receiver, &whole[..second]);
                let last = &whole[second..];
                assert_eq!(receiver.take(last), out(&whole, last.len()));
                holds(&receiver, &[]);
            }
        }
    }

    // "one a call; a call takes no byte past what it hands out and says how many it took; one that
    // hands out nothing has taken the whole piece."
    #[test]
    fn one_packet_a_call() {
        let (first, second) = (packet(b"A"), packet(b"BC"));
        let piece = [&b"noise"[..], &first, &second, b"\x03\x0BSON"].concat();
        let mut receiver = Receiver::empty();
        assert_eq!(receiver.take(&piece), out(&first, 19));
        holds(&receiver, &[]);
        assert_eq!(receiver.take(&piece[19..]), out(&second, 15));
        holds(&receiver, &[]);
        assert_eq!(receiver.take(&piece[34..]), nothing(5));
        holds(&receiver, b"\x03\x0BSON");
        assert_eq!(receiver.take(&[]), nothing(0));
        holds(&receiver, b"\x03\x0BSON");
        assert_eq!(receiver.take(b"nothing of ours"), nothing(15));
        holds(&receiver, &[]);
    }

    // "It holds at most 512 bytes."
    #[test]
    fn the_longest_packet() {
        let longest = packet(&[b'A'; 499]);
        assert_eq!(longest.len(), MOST_HELD);
        let mut receiver = Receiver::empty();
        for byte in &longest[..511] {
            assert_eq!(receiver.take(&[*byte]), nothing(1));
        }
        holds(&receiver, &longest[..511]);
        assert_eq!(receiver.take(&longest[511..]), out(&longest, 1));
        holds(&receiver, &[]);
        // A record may hold it whole.
        let mut receiver = holding(&longest);
        assert_eq!(receiver.take(b"A"), out(&longest, 0));
        holds(&receiver, &[]);
    }

    // "one that claims to hold more is emptied first".
    #[test]
    fn a_record_that_claims_more_is_emptied_first() {
        for claimed in [513, 514, 1024, usize::MAX] {
            let whole = packet(b"A");
            let mut receiver = holding(&packet(&[b'B'; 499]));
            receiver.held = claimed;
            assert_eq!(receiver.take(&whole), out(&whole, 14));
            holds(&receiver, &[]);
            let mut receiver = holding(&[]);
            receiver.held = claimed;
            assert_eq!(receiver.take(&whole[..13]), nothing(13));
            holds(&receiver, &whole[..13]);
        }
        // 512 are not more: these can begin no packet but for the last.
        let mut full = [0; MOST_HELD];
        full[511] = 0x03;
        let mut receiver = holding(&full);
        assert_eq!(receiver.take(&[0x0B]), nothing(1));
        holds(&receiver, &[0x03, 0x0B]);
    }

    // "bytes held are read before the piece".
    #[test]
    fn bytes_held_are_read_before_the_piece() {
        let whole = packet(b"held");
        let mut receiver = holding(&whole[..9]);
        assert_eq!(receiver.take(&whole[9..]), out(&whole, 8));
        holds(&receiver, &[]);
        // Noise in the record is dropped as noise in a piece is.
        let mut receiver = holding(&[b"noise\x03", &whole[..9]].concat());
        assert_eq!(receiver.take(&whole[9..]), out(&whole, 8));
        holds(&receiver, &[]);
        let mut receiver = holding(b"noise");
        assert_eq!(receiver.take(&whole), out(&whole, 17));
        holds(&receiver, &[]);
    }

    // A packet that is whole in the record is handed out, and nothing of the piece is taken.
    #[test]
    fn a_record_that_holds_packets() {
        let (first, second) = (packet(b"first"), packet(b"second"));
        let mut receiver =
            holding(&[b"noise", &first[..], b"noise", &second, &first[..7]].concat());
        assert_eq!(receiver.take(&first[7..]), out(&first, 0));
        holds(&receiver, &[b"noise", &second[..], &first[..7]].concat());
        assert_eq!(receiver.take(&first[7..]), out(&second, 0));
        holds(&receiver, &first[..7]);
        assert_eq!(receiver.take(&first[7..]), out(&first, 11));
        holds(&receiver, &[]);
    }

    // "after each call its store is 0 behind the bytes held", whatever stood there before.
    #[test]
    fn the_store_is_0_behind_the_bytes_held() {
        let whole = packet(b"STATget LED");
        for length in 0..whole.len() {
            let mut receiver = holding(&whole[..length]);
            receiver.take(&[]);
            holds(&receiver, &whole[..length]);
            receiver.take(&whole[length..]);
            holds(&receiver, &[]);
        }
        let mut receiver = holding(b"noise");
        receiver.take(&[]);
        holds(&receiver, &[]);
    }

    // "It drops bytes one by one until the next bytes can begin 03h 0Bh "SONY"".
    #[test]
    fn bytes_are_dropped_one_by_one() {
        let whole = packet(b"STATget LED");
        for length in 0..=6 {
            for byte in 0..=255 {
                let cut_off = [&FRONT[..length], &[byte]].concat();
                if can_begin_a_packet(&cut_off) {
                    continue;
                }
                let mut receiver = Receiver::empty();
                receiver.take(&cut_off);
                let left: &[u8] = if byte == 0x03 { b"\x03" } else { b"" };
                holds(&receiver, left);
                assert_eq!(
                    receiver.take(&whole[left.len()..]).packet,
                    Some(whole.clone())
                );
                let mut receiver = Receiver::empty();
                let piece = [&cut_off, &whole[left.len()..]].concat();
                assert_eq!(receiver.take(&piece), out(&whole, piece.len()));
            }
        }
    }

    // "with 13 bytes it knows the length".
    #[test]
    fn thirteen_bytes_tell_the_length() {
        let empty = packet(b"");
        let mut receiver = Receiver::empty();
        assert_eq!(receiver.take(&empty[..12]), nothing(12));
        assert_eq!(receiver.take(&empty[12..]), out(&empty, 1));
        for length in 1..=499 {
            let whole = packet(&vec![0x03; usize::from(length)]);
            let mut receiver = Receiver::empty();
            let first = whole.len() - 1;
            assert_eq!(receiver.take(&whole[..first]), nothing(first));
            assert_eq!(receiver.take(&[0x03, 0x03]), out(&whole, 1));
            assert_eq!(saying(length, &whole[13..]), whole);
        }
    }

    // "With a length over 499 just those 13 bytes are handed out as a message ... and it searches
    // on."
    #[test]
    fn a_length_over_499() {
        for length in 500..=u16::MAX {
            let header = saying(length, b"");
            let mut receiver = Receiver::empty();
            assert_eq!(receiver.take(&header[..12]), nothing(12));
            assert_eq!(receiver.take(&[header[12], b'A']), out(&header, 1));
            holds(&receiver, &[]);
        }
        let whole = packet(b"STATget LED");
        let mut receiver = Receiver::empty();
        let data = [&[b'A'; 100][..], &whole, &[b'A'; 400]].concat();
        let piece = saying(524, &data);
        assert_eq!(receiver.take(&piece), out(&piece[..13], 13));
        assert_eq!(receiver.take(&piece[13..]), out(&whole, 124));
        assert_eq!(receiver.take(&piece[137..]), nothing(400));
        holds(&receiver, &[]);
    }

    // "Other packets are handed out whole, addressed or not."
    #[test]
    fn addressed_or_not() {
        for place in 6..11 {
            for byte in 0..=255 {
                let mut whole = packet(b"no words");
                whole[place] = byte;
                assert_eq!(Receiver::empty().take(&whole), out(&whole, 21));
            }
        }
    }
}
