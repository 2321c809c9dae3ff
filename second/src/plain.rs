//! Document 02, §7, "A reader the crew can follow": the plain receiver beside that of §1.
//!
//! "It has two rules over a whole buffer: between packets, and in a packet, each passing the rest of
//! the bytes to the other. It lists the start and length of each packet and of each overlong header,
//! and where an unfinished tail begins, else the buffer's end."

/// "The list holds 64 entries".
pub const MOST_ENTRIES: usize = 64;

/// What every packet begins with (§1): "03h 0Bh "SONY"".
const FRONT: [u8; 6] = [0x03, 0x0B, b'S', b'O', b'N', b'Y'];

/// "with 13 bytes it knows the length" (§1).
const HEADER_LENGTH: usize = 13;

/// "With a length over 499 just those 13 bytes" (§1).
const LONGEST_DATA: usize = 499;

/// "the start and length of each packet and of each overlong header".
#[derive(Clone, Copy, Debug, PartialEq, Eq)]
pub struct Entry {
    pub start: usize,
    pub length: usize,
}

/// Where the reader came to.
#[derive(Clone, Copy, Debug, PartialEq, Eq)]
pub enum End {
    /// "where an unfinished tail begins, else the buffer's end".
    Tail(usize),
    /// "the plain reader stops at the start of a 65th and says where".
    Stop(usize),
}

/// What the plain reader says of a buffer.
#[derive(Clone, Debug, PartialEq, Eq)]
pub struct List {
    pub entries: Vec<Entry>,
    pub end: End,
}

/// Reads a whole buffer. It begins between packets.
pub fn list(buffer: &[u8]) -> List {
    let mut entries = Vec::new();
    let end = between_packets(buffer, 0, &mut entries);
    List { entries, end }
}

/// The rule between packets: bytes are dropped "one by one until the next bytes can begin 03h 0Bh
/// "SONY"" (§1). The rest of the bytes is in a packet.
fn between_packets(buffer: &[u8], behind: usize, entries: &mut Vec<Entry>) -> End {
    let next = (behind..buffer.len()).find(|place| can_begin(&buffer[*place..]));
    match next {
        Some(start) => in_a_packet(buffer, start, entries),
        None => End::Tail(buffer.len()),
    }
}

/// The rule in a packet: it is listed where it is whole. The rest of the bytes is between packets.
fn in_a_packet(buffer: &[u8], start: usize, entries: &mut Vec<Entry>) -> End {
    match whole_length(&buffer[start..]) {
        None => End::Tail(start),
        Some(_) if entries.len() == MOST_ENTRIES => End::Stop(start),
        Some(length) => {
            entries.push(Entry { start, length });
            between_packets(buffer, start + length, entries)
        }
    }
}

/// Whether these bytes begin with the front of a packet, or end within it.
fn can_begin(rest: &[u8]) -> bool {
    let length = rest.len().min(FRONT.len());
    rest[..length] == FRONT[..length]
}

/// The length of the packet or overlong header that these bytes begin with; nothing where they end
/// before it does.
fn whole_length(rest: &[u8]) -> Option<usize> {
    if rest.len() < HEADER_LENGTH {
        return None;
    }
    let data = 256 * usize::from(rest[11]) + usize::from(rest[12]);
    let length = if data > LONGEST_DATA {
        HEADER_LENGTH
    } else {
        HEADER_LENGTH + data
    };
    (length <= rest.len()).then_some(length)
}

#[cfg(test)]
mod tests {
    use super::*;
    use crate::receiver::Receiver;

    /// A header that says this length.
    fn header(length: u16) -> Vec<u8> {
        let mut bytes = [&FRONT[..], b"\x00\x00\x00\xB0\x00"].concat();
        bytes.extend_from_slice(&length.to_be_bytes());
        bytes
    }

    fn packet(data: &[u8]) -> Vec<u8> {
        [&header(data.len() as u16), data].concat()
    }

    /// Checks what is listed of a buffer: starts and lengths, and where the reader came to.
    #[track_caller]
    fn lists(buffer: &[u8], entries: &[(usize, usize)], end: End) {
        let entries = entries
            .iter()
            .map(|(start, length)| Entry {
                start: *start,
                length: *length,
            })
            .collect();
        assert_eq!(list(buffer), List { entries, end });
    }

    /// Starts and lengths of so many packets without data, this far apart.
    fn apart(count: usize, first: usize, step: usize) -> Vec<(usize, usize)> {
        (0..count)
            .map(|place| (first + step * place, HEADER_LENGTH))
            .collect()
    }

    #[test]
    fn no_bytes() {
        lists(b"", &[], End::Tail(0));
    }

    // Between packets bytes are dropped one by one.
    #[test]
    fn noise_alone() {
        lists(b"A", &[], End::Tail(1));
        lists(b"noise", &[], End::Tail(5));
        lists(b"\x0BSONY", &[], End::Tail(5));
        lists(b"\x03\x0BSONy", &[], End::Tail(6));
        lists(&[0x00; 1024], &[], End::Tail(1024));
        for place in 0..FRONT.len() {
            let mut bytes = packet(b"");
            bytes[place] ^= 0x20;
            lists(&bytes, &[], End::Tail(13));
        }
    }

    #[test]
    fn packets_with_noise_between() {
        let (first, second) = (packet(b"STATget LED"), packet(b""));
        lists(&first, &[(0, 24)], End::Tail(24));
        let both = [&first[..], &second].concat();
        lists(&both, &[(0, 24), (24, 13)], End::Tail(37));
        let noisy = [b"no", &first[..], b"\x03\x0BS\x03", &second, b"end"].concat();
        lists(&noisy, &[(2, 24), (30, 13)], End::Tail(46));
        // Data that looks like a packet is data.
        let outer = packet(&both);
        let bytes = [&outer[..], b"A", &second].concat();
        lists(&bytes, &[(0, 50), (51, 13)], End::Tail(64));
        // The longest packets, two in 1,024 bytes.
        let longest = packet(&[0x03; 499]).repeat(2);
        lists(&longest, &[(0, 512), (512, 512)], End::Tail(1024));
    }

    // "and of each overlong header": its 13 bytes, and the search goes on behind them.
    #[test]
    fn overlong_headers() {
        let get = packet(b"STATget LED");
        for length in [500, 501, 512, 0x7FFF, 0xFFFF] {
            let overlong = header(length);
            lists(&overlong, &[(0, 13)], End::Tail(13));
            let bytes = [&overlong[..], b"AB", &get, &overlong].concat();
            lists(&bytes, &[(0, 13), (15, 24), (39, 13)], End::Tail(52));
        }
        let whole = [&header(500)[..], &[b'A'; 500]].concat();
        lists(&whole, &[(0, 13)], End::Tail(513));
        // Its own bytes are not searched: the last seven of these can begin a packet.
        let twice = [&FRONT[..], &FRONT, b"\x00", &[0x00; 6]].concat();
        lists(&twice, &[(0, 13)], End::Tail(19));
        // 499 is not over 499.
        lists(&header(499), &[], End::Tail(0));
    }

    // "where an unfinished tail begins, else the buffer's end".
    #[test]
    fn tails() {
        let get = packet(b"STATget LED");
        for cut in 1..get.len() {
            lists(&get[..cut], &[], End::Tail(0));
            let behind = [&get[..], b"A", &get[..cut]].concat();
            lists(&behind, &[(0, 24)], End::Tail(25));
        }
        // Of an unfinished packet nothing is searched: a packet in its data is not listed.
        let inside = [&header(100)[..], &get, &get].concat();
        lists(&inside, &[], End::Tail(0));
        // The last bytes that can begin a packet, not the first that could have.
        lists(b"\x03\x0BSON\x03\x0B", &[], End::Tail(5));
    }

    #[test]
    fn a_tail_of_a_lone_03h() {
        let get = packet(b"STATget LED");
        lists(b"\x03", &[], End::Tail(0));
        lists(b"A\x03", &[], End::Tail(1));
        lists(b"\x03\x03\x03", &[], End::Tail(2));
        let bytes = [&get[..], b"\x03"].concat();
        lists(&bytes, &[(0, 24)], End::Tail(24));
        // As the last byte of a packet it is data.
        lists(&packet(b"\x03"), &[(0, 14)], End::Tail(14));
    }

    // "The list holds 64 entries, and the plain reader stops at the start of a 65th and says where."
    #[test]
    fn sixty_four_entries() {
        let empty = packet(b"");
        for count in [63, 64] {
            let bytes = empty.repeat(count);
            lists(&bytes, &apart(count, 0, 13), End::Tail(13 * count));
        }
        for count in [65, 66, 78] {
            let bytes = empty.repeat(count);
            lists(&bytes, &apart(64, 0, 13), End::Stop(13 * 64));
        }
        // The 65th starts behind the noise before it.
        let noisy = [b"A", &empty[..]].concat();
        lists(&noisy.repeat(64), &apart(64, 1, 14), End::Tail(14 * 64));
        lists(&noisy.repeat(65), &apart(64, 1, 14), End::Stop(14 * 64 + 1));
        // Overlong headers are entries too, also as the 65th.
        let overlong = header(500);
        lists(&overlong.repeat(66), &apart(64, 0, 13), End::Stop(832));
        let last = [&empty.repeat(64)[..], &overlong].concat();
        lists(&last, &apart(64, 0, 13), End::Stop(832));
    }

    // A 65th that is unfinished is the tail.
    #[test]
    fn sixty_four_and_an_unfinished_one() {
        let full = packet(b"").repeat(64);
        let get = packet(b"STATget LED");
        for cut in 1..get.len() {
            let bytes = [&full[..], &get[..cut]].concat();
            lists(&bytes, &apart(64, 0, 13), End::Tail(832));
            let bytes = [&full[..], b"A\x03", &get[..cut]].concat();
            lists(&bytes, &apart(64, 0, 13), End::Tail(834));
        }
        let bytes = [&full[..], &header(500)[..12]].concat();
        lists(&bytes, &apart(64, 0, 13), End::Tail(832));
    }

    #[test]
    fn sixty_four_and_noise() {
        let full = packet(b"").repeat(64);
        for noise in [&b"A"[..], b"noise", b"\x03\x0BSONy", &[0x00; 192]] {
            let bytes = [&full[..], noise].concat();
            lists(&bytes, &apart(64, 0, 13), End::Tail(832 + noise.len()));
        }
    }

    /// Gives a receiver this piece's rest until a call hands out nothing.
    fn handed_out(receiver: &mut Receiver, piece: &[u8]) -> Vec<Vec<u8>> {
        let mut packets = Vec::new();
        let mut rest = piece;
        loop {
            let call = receiver.take(rest);
            rest = &rest[call.taken..];
            match call.packet {
                Some(packet) => packets.push(packet),
                None => return packets,
            }
        }
    }

    /// A small random number generator, the same at every run.
    struct Chance(u32);

    impl Chance {
        fn below(&mut self, bound: usize) -> usize {
            self.0 = self.0.wrapping_mul(1_664_525).wrapping_add(1_013_904_223);
            (self.0 >> 8) as usize % bound
        }

        /// A buffer of packets, beginnings of them, overlong headers and noise.
        fn buffer(&mut self) -> Vec<u8> {
            let mut buffer = Vec::new();
            let (count, longest) = [(self.below(6), 499), (55 + self.below(60), 5)][self.below(2)];
            for _ in 0..count {
                let data = vec![0x03; [0, 0, 0, 0, 1, 5, 30, 499][self.below(8)].min(longest)];
                match self.below(10) {
                    0 => buffer.push(0x03),
                    1 => buffer.extend_from_slice(&header(500)),
                    2 => buffer.extend_from_slice(&FRONT[..self.below(6)]),
                    3 => buffer.push(self.below(256) as u8),
                    4 => buffer.extend_from_slice(&packet(&packet(&data[..data.len().min(9)]))),
                    _ => buffer.extend_from_slice(&packet(&data)),
                }
            }
            if self.below(3) == 0 {
                buffer.truncate(self.below(buffer.len() + 1));
            }
            buffer
        }

        /// These bytes in pieces, cut anyhow; an empty piece may be among them.
        fn pieces<'a>(&mut self, bytes: &'a [u8]) -> Vec<&'a [u8]> {
            let mut pieces = Vec::new();
            let mut rest = bytes;
            while !rest.is_empty() {
                let most = rest.len().min([3, 20, 700][self.below(3)]);
                let (piece, behind) = rest.split_at(self.below(most + 1));
                pieces.push(piece);
                rest = behind;
            }
            pieces
        }
    }

    // "§1's receiver, empty at first and fed in any cutting the bytes up to where the plain reader
    // stops, hands out the same things in the same order."
    #[test]
    fn the_receiver_hands_out_what_is_listed() {
        let mut chance = Chance(7);
        let (mut tails, mut stops) = (0, 0);
        for _ in 0..200 {
            let buffer = chance.buffer();
            let listed = list(&buffer);
            let parts: Vec<&[u8]> = listed
                .entries
                .iter()
                .map(|entry| &buffer[entry.start..entry.start + entry.length])
                .collect();
            let end = match listed.end {
                End::Tail(place) => place,
                End::Stop(place) => place,
            };
            tails += usize::from(end < buffer.len() && listed.end == End::Tail(end));
            stops += usize::from(listed.end == End::Stop(end));
            let mut cuttings = vec![vec![&buffer[..end]], buffer[..end].chunks(1).collect()];
            for _ in 0..5 {
                cuttings.push(chance.pieces(&buffer[..end]));
            }
            for cutting in cuttings {
                let mut receiver = Receiver::empty();
                let out: Vec<Vec<u8>> = cutting
                    .iter()
                    .flat_map(|piece| handed_out(&mut receiver, piece))
                    .collect();
                assert_eq!(out, parts);
            }
        }
        assert!(tails >= 50 && stops >= 20, "{tails}, {stops}");
    }
}
