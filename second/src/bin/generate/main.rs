//! `generate`: scripts to run through the box and the second program alike.
//!
//! - `generate SEED ORDERS` writes a random script of that many orders; the same seed gives the
//!   same script, always and everywhere.
//! - `generate sweep` writes the fixed script that walks every small range of document 01, streams
//!   in pieces (document 02, §1), every ending behind every kind of words (§2), every flip word
//!   from every flip (§4), status asked by broadcast in every form (§5), the codes of the remote
//!   control (§6), buffers for the plain reader (§7), and envelopes with each part wrong, and with
//!   every two (§8).
//!
//! The generator knows what the documents accept, so that most of its messages get past the first
//! checks; it does not know, and does not use, what the answers are.

mod buffers;
mod envelopes;
mod make;
mod random;
mod rng;
mod sweep;
mod unread;
mod wire;
mod words;

use std::env;
use std::io::{self, Write};
use std::process::ExitCode;

fn main() -> ExitCode {
    let arguments: Vec<String> = env::args().skip(1).collect();
    let Some(script) = script_for(&arguments) else {
        eprintln!("usage: generate SEED ORDERS | generate sweep");
        return ExitCode::from(2);
    };
    let mut output = io::stdout().lock();
    match output.write_all(&script).and_then(|()| output.flush()) {
        Ok(()) => ExitCode::SUCCESS,
        Err(_) => ExitCode::FAILURE,
    }
}

fn script_for(arguments: &[String]) -> Option<Vec<u8>> {
    match arguments {
        [word] if word == "sweep" => Some(sweep::script()),
        [seed, orders] => Some(random::script(seed.parse().ok()?, orders.parse().ok()?)),
        _ => None,
    }
}

#[cfg(test)]
mod tests {
    use super::*;
    use std::collections::BTreeSet;

    /// The answered lines of a script, each with its answer.
    fn answered(script: &[u8]) -> Vec<(String, String)> {
        let mut output = Vec::new();
        second::script::run(script, &mut output).unwrap();
        let answers = answers(&String::from_utf8(output).unwrap());
        let orders: Vec<&[u8]> = script
            .split(|byte| *byte == b'\n')
            .filter(|line| line.first().is_some_and(|byte| *byte != b'#'))
            .collect();
        assert_eq!(orders.len(), answers.len());
        orders
            .iter()
            .map(|order| String::from_utf8_lossy(order).into_owned())
            .zip(answers)
            .collect()
    }

    /// The answers in an output, a line each but for `piece`: its first line is a `packet` or
    /// `held`, and its last is `held`.
    fn answers(output: &str) -> Vec<String> {
        let mut answers: Vec<String> = Vec::new();
        let mut goes_on = false;
        for line in output.lines() {
            match answers.last_mut() {
                Some(answer) if goes_on => {
                    answer.push('\n');
                    answer.push_str(line);
                }
                _ => answers.push(line.to_string()),
            }
            goes_on = line.starts_with("packet ") || goes_on && !line.starts_with("held ");
        }
        answers
    }

    /// The word behind these in a line.
    fn word_behind<'a>(words: &str, line: &'a str) -> Option<&'a str> {
        line.strip_prefix(words)?.split(' ').next()
    }

    /// The order word, and each line that was written for it.
    fn lines(answered: &[(String, String)]) -> impl Iterator<Item = (&str, &str)> {
        answered.iter().flat_map(|(order, answer)| {
            let word = order.split(' ').next().unwrap_or_default();
            answer.lines().map(move |line| (word, line))
        })
    }

    /// Which orders got which answer numbers.
    fn reached(answered: &[(String, String)]) -> BTreeSet<(&str, &str)> {
        lines(answered)
            .filter_map(|(word, line)| {
                let number = word_behind("answer ", line).or_else(|| word_behind("box ", line))?;
                Some((word, number))
            })
            .collect()
    }

    /// Which orders got which numbers with which places (§8).
    fn places(answered: &[(String, String)]) -> BTreeSet<(&str, u8, usize)> {
        lines(answered)
            .filter_map(|(word, line)| {
                let (number, told) = line.strip_prefix("answer ")?.split_once(" at ")?;
                let place = word_behind("", told)?.parse();
                Some((word, number.parse().unwrap(), place.unwrap()))
            })
            .collect()
    }

    /// How many packets each piece that was read handed out, and what was held then.
    fn pieces(answered: &[(String, String)]) -> Vec<(usize, usize)> {
        let pieces = answered
            .iter()
            .filter(|(order, answer)| order.starts_with("piece ") && answer != "unread");
        pieces
            .map(|(_, answer)| {
                let (_, held) = answer.rsplit_once("held ").unwrap();
                (answer.lines().count() / 2, held.parse().unwrap())
            })
            .collect()
    }

    /// Pieces with no packet, one and several, that leave nothing, a part of the front, a part of
    /// the header, of the data, and all of the longest packet but its last byte.
    fn every_kind_of_piece_is_there(answered: &[(String, String)]) {
        let pieces = pieces(answered);
        for packets in [0..1, 1..2, 2..3, 3..100] {
            for held in [0..1, 1..6, 6..13, 13..500] {
                let there =
                    |piece: &(usize, usize)| packets.contains(&piece.0) && held.contains(&piece.1);
                assert!(
                    pieces.iter().any(there),
                    "{packets:?} packets, {held:?} held"
                );
            }
        }
        assert!(pieces.iter().any(|(_, held)| *held == 511));
        assert!(pieces.iter().all(|(_, held)| *held < 512));
    }

    /// Every answer number that the documents have for each way in.
    fn every_answer() -> BTreeSet<(&'static str, &'static str)> {
        let numbers = [
            ("box", "0 7"),
            ("rs232", "0 1 2 3 4 6 13 14"),
            ("tcp", "0 1 2 3 4 6 9 10 11 12"),
            // What a receiver hands out has 13 bytes at least, and as many as it says, or says over
            // 499.
            ("piece", "0 1 2 4 6 9 10 11"),
            ("udp", "0 3 4 6 8 9 10 11 12"),
            ("kjw", "0 1 2 3 4 6"),
            ("advert", "0 3 4 5"),
            ("write", "0 1 3 4 5"),
        ];
        numbers
            .into_iter()
            .flat_map(|(way, numbers)| numbers.split(' ').map(move |number| (way, number)))
            .collect()
    }

    /// Every place that §8 has for each way in, but for the checksum's.
    fn every_place() -> BTreeSet<(&'static str, u8, usize)> {
        let by_tcp = [(9, 8), (10, 9), (11, 11), (12, 11)];
        [
            ("tcp", &by_tcp[..]),
            ("udp", &by_tcp),
            ("piece", &by_tcp[..3]),
            ("rs232", &[(13, 1)]),
        ]
        .into_iter()
        .flat_map(|(way, places)| places.iter().map(move |(number, at)| (way, *number, *at)))
        .collect()
    }

    #[test]
    fn a_seed_gives_one_script() {
        assert_eq!(random::script(7, 500), random::script(7, 500));
        assert_ne!(random::script(7, 500), random::script(8, 500));
        assert_eq!(sweep::script(), sweep::script());
    }

    #[test]
    fn a_random_script_has_the_orders_asked_for() {
        for (seed, orders) in [(0, 0), (1, 1), (2, 999), (u64::MAX, 3000)] {
            assert_eq!(answered(&random::script(seed, orders)).len(), orders);
        }
    }

    #[test]
    fn a_random_script_reaches_every_answer() {
        let answered = answered(&random::script(3, 8000));
        assert_eq!(reached(&answered), every_answer());
    }

    #[test]
    fn a_random_script_has_pieces_of_every_kind() {
        let answered = answered(&random::script(3, 20_000));
        every_kind_of_piece_is_there(&answered);
        let is_piece = |order: &&(String, String)| order.0.starts_with("piece ");
        let share = answered.iter().filter(is_piece).count() * 1000 / answered.len();
        assert!((45..80).contains(&share), "{share} of 1000 orders");
        for link in 0..=9 {
            let word = format!("piece {link} ");
            let unread: BTreeSet<bool> = answered
                .iter()
                .filter(|(order, _)| order.starts_with(&word))
                .map(|(_, answer)| answer == "unread")
                .collect();
            assert!(unread.contains(&!(1..=8).contains(&link)), "link {link}");
        }
    }

    /// The bytes of a packet by TCP or UDP that has a whole header.
    fn packet_of(order: &str) -> Option<Vec<u8>> {
        let (way, digits) = order.rsplit_once(' ')?;
        if way != "udp" && !way.starts_with("tcp ") {
            return None;
        }
        let bytes: Option<Vec<u8>> = (0..digits.len())
            .step_by(2)
            .map(|place| u8::from_str_radix(digits.get(place..place + 2)?, 16).ok())
            .collect();
        bytes.filter(|bytes| bytes.len() >= 13)
    }

    /// The length that the header of a packet says.
    fn said_length(bytes: &[u8]) -> usize {
        usize::from(u16::from_be_bytes([bytes[11], bytes[12]]))
    }

    /// The data of a packet by TCP or UDP whose length is right, and its answer's number.
    fn data_and_number((order, answer): &(String, String)) -> Option<(Vec<u8>, &str)> {
        let bytes = packet_of(order)?;
        let data = bytes[13..].to_vec();
        let number = word_behind("answer ", answer)?;
        (data.len() == said_length(&bytes)).then_some((data, number))
    }

    /// The bytes behind the last that is no space, tab, 00h or 01h.
    fn ending_of(data: &[u8]) -> &[u8] {
        let last = data.iter().rposition(|byte| !b" \0\t\x01".contains(byte));
        &data[last.map_or(0, |place| place + 1)..]
    }

    /// Every ending, good and bad, behind words that are carried out, or would be.
    fn every_ending_is_there(answered: &[(String, String)]) {
        let told: Vec<(Vec<u8>, &str)> = answered.iter().filter_map(data_and_number).collect();
        for (endings, number) in [
            (&words::GOOD_ENDINGS[..], "0"),
            (&words::BAD_ENDINGS[..], "6"),
        ] {
            for ending in endings {
                let there =
                    |(data, told): &&(Vec<u8>, &str)| ending_of(data) == *ending && *told == number;
                assert!(told.iter().filter(there).count() >= 5, "{ending:?}");
            }
        }
    }

    #[test]
    fn a_random_script_has_endings() {
        let answered = answered(&random::script(3, 20_000));
        every_ending_is_there(&answered);
        let told: Vec<(Vec<u8>, &str)> = answered.iter().filter_map(data_and_number).collect();
        let ended = told.iter().filter(|(data, _)| !ending_of(data).is_empty());
        let share = ended.count() * 1000 / told.len();
        assert!((220..300).contains(&share), "{share} of 1000 packets");
    }

    /// The words of a data area that is a STATset as it stands.
    fn set_words(data: &[u8]) -> Option<&str> {
        let text = std::str::from_utf8(data).ok()?;
        text.trim_end_matches(['\0', ' ']).strip_prefix("STATset ")
    }

    #[test]
    fn a_random_script_has_flips() {
        let answered = answered(&random::script(3, 20_000));
        let told: Vec<(Vec<u8>, &str)> = answered.iter().filter_map(data_and_number).collect();
        let sets = told.iter().filter(|(_, number)| *number == "0");
        let sets: Vec<&str> = sets.filter_map(|(data, _)| set_words(data)).collect();
        let flips = sets.iter().filter(|words| words.starts_with("FLIP"));
        let share = flips.count() * 1000 / sets.len();
        assert!((150..300).contains(&share), "{share} of 1000 sets");
        for word in words::FLIPS {
            for state in ["ON", "OFF"] {
                let wanted = format!("{word} {state}");
                let count = sets.iter().filter(|words| **words == wanted).count();
                assert!(count >= 15, "{wanted}: {count}");
            }
        }
    }

    /// How many data areas by UDP begin with this text and have this number.
    fn broadcasts(answered: &[(String, String)], text: &str, number: &str) -> usize {
        answered
            .iter()
            .filter(|(order, _)| order.starts_with("udp "))
            .filter_map(data_and_number)
            .filter(|(data, told)| data.starts_with(text.as_bytes()) && *told == number)
            .count()
    }

    #[test]
    fn a_random_script_asks_for_status_by_broadcast() {
        let answered = answered(&random::script(3, 20_000));
        let count = |texts: &[&str], number: &str| -> usize {
            let counts = texts.iter().map(|text| broadcasts(&answered, text, number));
            counts.sum()
        };
        let names = words::names();
        let asked: Vec<String> = names.iter().map(|name| format!("STATget {name}")).collect();
        let asked: Vec<&str> = asked.iter().map(String::as_str).collect();
        assert!(count(&asked, "8") >= 50);
        assert!(count(&words::QUESTIONS, "8") >= 50);
        assert!(count(&words::NO_QUESTIONS, "6") >= 20);
        // Those with a wrong part of the envelope, but for the length: it is right here, or over 499.
        let wrong = ["9", "10", "11"].map(|number| count(&["STATget "], number));
        assert!(wrong.iter().sum::<usize>() >= 5, "{wrong:?}");
        assert!(count(&["STATget "], "4") >= 20);
        assert_eq!(count(&["STATget "], "0") + count(&["STATget "], "6"), 0);
    }

    #[test]
    fn the_sweep_asks_for_status_by_broadcast() {
        let answered = answered(&sweep::script());
        for name in words::names() {
            let asked = format!("STATget {name}");
            assert!(broadcasts(&answered, &asked, "8") >= 20, "{asked}");
        }
        for (texts, number) in [(words::QUESTIONS, "8"), (words::NO_QUESTIONS, "6")] {
            for text in texts {
                assert!(broadcasts(&answered, text, number) >= 10, "{text:?}");
            }
        }
    }

    /// How often this code of the remote control is answered so, with a notice or without.
    fn presses(answered: &[(String, String)], code: u64, answer: &str) -> usize {
        let sixteen = make::zeros_before(&code.to_string());
        let frame = make::hex(&make::frame(b'C', b"IRCC", &sixteen));
        let wanted = |(order, told): &&(String, String)| {
            order.starts_with("kjw ") && order.ends_with(&frame) && told.starts_with(answer)
        };
        answered.iter().filter(wanted).count()
    }

    /// The front of the answer to an accepted code, of one that is refused, and of each with a
    /// notice behind it.
    const ACCEPTED: &str = "answer 0 reply 2A534149524343303030303030303030303030303030300A";
    const REFUSED: &str = "answer 6 reply 2A534149524343464646464646464646464646464646460A";
    const WITH_NOTICE: &str =
        "answer 0 reply 2A534149524343303030303030303030303030303030300A2A534E";

    #[test]
    fn a_random_script_has_the_remote_control() {
        let answered = answered(&random::script(3, 20_000));
        for code in words::STATE_CODES {
            assert!(presses(&answered, code, WITH_NOTICE) >= 5, "{code}");
        }
        // Louder at 100, softer at 0, and a port that is chosen: answered without a notice.
        for code in [30, 31, 124] {
            let alone = presses(&answered, code, ACCEPTED) - presses(&answered, code, WITH_NOTICE);
            assert!(alone >= 1, "{code}");
        }
        let listed: usize = (0..=140)
            .map(|code| presses(&answered, code, ACCEPTED))
            .sum();
        let unlisted: usize = (0..=140)
            .map(|code| presses(&answered, code, REFUSED))
            .sum();
        assert!(listed >= 100 && unlisted >= 20, "{listed}, {unlisted}");
    }

    #[test]
    fn the_sweep_has_the_remote_control() {
        let answered = answered(&sweep::script());
        for code in 0..=140 {
            let listed = presses(&answered, code, ACCEPTED);
            let refused = presses(&answered, code, REFUSED);
            assert!(listed.max(refused) >= 10, "{code}");
            assert_eq!(listed.min(refused), 0, "{code}");
            let told = presses(&answered, code, WITH_NOTICE) > 0;
            assert_eq!(told, words::STATE_CODES.contains(&code), "{code}");
        }
    }

    /// What the plain reader says of a buffer.
    #[derive(PartialEq, Eq, PartialOrd, Ord)]
    struct Said {
        entries: usize,
        /// Where the last entry ended.
        behind: usize,
        stopped: bool,
        end: usize,
        length: usize,
    }

    /// What each `plain` that was read is answered with.
    fn lists(answered: &[(String, String)]) -> Vec<Said> {
        let plains = answered.iter().filter_map(|(order, answer)| {
            let digits = order.strip_prefix("plain ")?;
            let list = answer.strip_prefix("plain ")?;
            Some((if digits == "-" { 0 } else { digits.len() / 2 }, list))
        });
        plains
            .map(|(length, list)| {
                let words: Vec<&str> = list.split(' ').collect();
                let (entries, end) = words.split_at(words.len() - 2);
                let last = entries.last().and_then(|entry| entry.split_once(':'));
                let behind = last.map_or(0, |(start, length)| {
                    start.parse::<usize>().unwrap() + length.parse::<usize>().unwrap()
                });
                Said {
                    entries: entries.len(),
                    behind,
                    stopped: end[0] == "stop",
                    end: end[1].parse().unwrap(),
                    length,
                }
            })
            .collect()
    }

    /// Lists of none, of some, of 63 and of 64 entries, that end with a tail, with noise, and with
    /// the last entry; and stops behind 64, with noise before the 65th and without.
    fn every_kind_of_list_is_there(answered: &[(String, String)]) {
        let lists = lists(answered);
        let count = |kind: &dyn Fn(&Said) -> bool| lists.iter().filter(|said| kind(said)).count();
        for entries in [0..1, 1..2, 2..10, 10..63, 63..64, 64..65] {
            let listed = |said: &Said| entries.contains(&said.entries) && !said.stopped;
            let tails = count(&|said| listed(said) && said.end < said.length);
            let noise = count(&|said| listed(said) && said.behind < said.end);
            let bare = count(&|said| listed(said) && said.behind == said.length);
            let least = tails
                .min(noise)
                .min(if entries.start > 0 { bare } else { tails });
            assert!(least >= 2, "{entries:?}: {tails}, {noise}, {bare}");
        }
        let behind_noise = count(&|said| said.stopped && said.behind < said.end);
        let at_once = count(&|said| said.stopped && said.behind == said.end);
        assert!(behind_noise >= 2 && at_once >= 20);
        assert_eq!(count(&|said| said.stopped && said.entries != 64), 0);
    }

    #[test]
    fn a_random_script_has_buffers_of_every_kind() {
        let answered = answered(&random::script(3, 20_000));
        every_kind_of_list_is_there(&answered);
        let is_plain = |order: &&(String, String)| order.0.starts_with("plain ");
        let share = answered.iter().filter(is_plain).count() * 1000 / answered.len();
        assert!((25..40).contains(&share), "{share} of 1000 orders");
    }

    #[test]
    fn the_sweep_has_every_count_of_packets() {
        let answered = answered(&sweep::script());
        every_kind_of_list_is_there(&answered);
        let lists: BTreeSet<Said> = lists(&answered).into_iter().collect();
        for entries in 0..=64 {
            let tails: BTreeSet<usize> = lists
                .iter()
                .filter(|said| said.entries == entries && !said.stopped)
                .map(|said| said.length - said.end)
                .collect();
            assert!([0, 1, 5, 12, 14].iter().all(|tail| tails.contains(tail)));
        }
    }

    #[test]
    fn the_sweep_has_every_ending_behind_every_kind_of_words() {
        let answered = answered(&sweep::script());
        every_ending_is_there(&answered);
        let told: BTreeSet<Vec<u8>> = answered
            .iter()
            .filter_map(data_and_number)
            .map(|(data, _)| data)
            .collect();
        for text in words::good_texts() {
            for ending in words::GOOD_ENDINGS.iter().chain(&words::BAD_ENDINGS) {
                let data = [text.as_bytes(), ending].concat();
                assert!(told.contains(&data), "{text} {ending:?}");
            }
        }
    }

    // A random script has each part with each way in, and checksums at many places.
    #[test]
    fn a_random_script_has_every_part_of_the_envelope() {
        let answered = answered(&random::script(3, 20_000));
        let (checksums, others): (BTreeSet<_>, BTreeSet<_>) = places(&answered)
            .into_iter()
            .partition(|(_, number, _)| *number == 14);
        assert_eq!(others, every_place());
        let lasts: BTreeSet<usize> = checksums.iter().map(|(_, _, place)| *place).collect();
        assert!(lasts.len() >= 6, "{lasts:?}");
    }

    #[test]
    fn the_sweep_has_every_part_of_the_envelope() {
        let answered = answered(&sweep::script());
        // A checksum stands at the end of 6 to 258 bytes.
        let checksums = (5..=257).map(|place| ("rs232", 14, place));
        let expected: BTreeSet<_> = every_place().into_iter().chain(checksums).collect();
        assert_eq!(places(&answered), expected);
    }

    // Request, item, length over 499, length not matching: every choice of them, each way in.
    #[test]
    fn the_sweep_has_every_choice_of_wrong_parts() {
        let script = sweep::script();
        let orders = String::from_utf8_lossy(&script);
        let choices: BTreeSet<(&str, [u8; 2], [bool; 4])> = orders
            .lines()
            .filter_map(|order| {
                let bytes = packet_of(order).filter(|bytes| bytes.starts_with(wire::FRONT))?;
                let length = said_length(&bytes);
                let wrong = [
                    bytes[8] != 0x00,
                    bytes[9..11] != [0xB0, 0x00],
                    length > 499,
                    length != bytes.len() - 13,
                ];
                Some((&order[..3], [bytes[6], bytes[7]], wrong))
            })
            .collect();
        for (way, ids) in [
            ("tcp", [0, 0]),
            ("tcp", [1, 3]),
            ("udp", [1, 255]),
            ("udp", [255, 255]),
        ] {
            for choice in 0..16 {
                let wrong = [1, 2, 4, 8].map(|part| choice & part != 0);
                assert!(
                    choices.contains(&(way, ids, wrong)),
                    "{way} {ids:?} {wrong:?}"
                );
            }
        }
    }

    #[test]
    fn the_sweep_reaches_every_answer() {
        let answered = answered(&sweep::script());
        assert!(answered.len() < sweep::MOST_ORDERS);
        assert_eq!(reached(&answered), every_answer());
        every_kind_of_piece_is_there(&answered);
        assert!(answered
            .iter()
            .all(|(_, answer)| !answer.contains("spoiled")));
    }
}
