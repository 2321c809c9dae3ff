//! `streams TIMES PIECE WORD..`: what a byte off the wire costs the receiver of the second program.
//!
//! Reads a stream in the words of scripts/streams.txt, HEX or HEX*N, and feeds it so many times to
//! one receiver, in pieces of PIECE bytes (the last of a round is what is left), each piece's rest
//! until a call hands out nothing. There is nothing else in the loop: no box, and no script.
//! `streams TIMES NAME` takes the kind with this name from scripts/streams.txt on standard input.
//!
//! Prints how many times, the nanoseconds that the loop took, how many bytes were fed, how many
//! packets came out and how many bytes they have together, and what is held at the end.

use std::env;
use std::hint::black_box;
use std::io;
use std::process::ExitCode;
use std::time::Instant;

use second::receiver::Receiver;

fn main() -> ExitCode {
    let words: Vec<String> = env::args().skip(1).collect();
    match run(&words) {
        Some(line) => {
            println!("{line}");
            ExitCode::SUCCESS
        }
        None => {
            eprintln!(
                "usage: streams TIMES PIECE WORD.. | streams TIMES NAME < scripts/streams.txt"
            );
            ExitCode::from(2)
        }
    }
}

/// The line to print; nothing where the words are no stream.
fn run(words: &[String]) -> Option<String> {
    let kind = match words {
        [_, name] => kind_of(&io::read_to_string(io::stdin()).ok()?, name)?,
        [_, piece, stream @ ..] => kind(piece, &stream.join(" "))?,
        _ => return None,
    };
    let times: u32 = words[0].parse().ok().filter(|times| *times > 0)?;
    let mut receiver = Receiver::empty();
    let mut out = HandedOut::default();
    let start = Instant::now();
    for _ in 0..times {
        for piece in kind.stream.chunks(kind.piece) {
            feed(&mut receiver, piece, &mut out);
        }
    }
    let took = start.elapsed().as_nanos();
    let fed = u64::from(times) * kind.stream.len() as u64;
    Some(format!(
        "{times} {took} fed {fed} packets {} bytes {} held {}",
        out.packets, out.bytes, receiver.held
    ))
}

/// What a receiver handed out.
#[derive(Default)]
struct HandedOut {
    packets: u64,
    bytes: u64,
}

/// Gives a piece's rest until a call hands out nothing.
fn feed(receiver: &mut Receiver, piece: &[u8], out: &mut HandedOut) {
    let mut rest = piece;
    loop {
        let call = receiver.take(rest);
        rest = &rest[call.taken..];
        let Some(packet) = black_box(call.packet) else {
            return;
        };
        out.packets += 1;
        out.bytes += packet.len() as u64;
    }
}

/// A stream, and how long its pieces are.
#[derive(Debug, PartialEq)]
struct Kind {
    piece: usize,
    stream: Vec<u8>,
}

/// The kind with this name, out of the lines of scripts/streams.txt.
fn kind_of(lines: &str, name: &str) -> Option<Kind> {
    let mut kinds = lines.lines().filter(|line| !line.starts_with('#'));
    kinds.find_map(|line| {
        let (_, words) = line.split_once('|').filter(|(first, _)| *first == name)?;
        let (piece, stream) = words.split_once('|')?;
        kind(piece, stream)
    })
}

fn kind(piece: &str, words: &str) -> Option<Kind> {
    let piece = piece.parse().ok().filter(|piece| *piece > 0)?;
    let parts: Option<Vec<Vec<u8>>> = words.split(' ').map(part).collect();
    Some(Kind {
        piece,
        stream: parts?.concat(),
    })
}

/// HEX, or HEX*N.
fn part(word: &str) -> Option<Vec<u8>> {
    let (digits, times) = match word.split_once('*') {
        Some((digits, times)) => (digits, times.parse().ok()?),
        None => (word, 1),
    };
    if digits.is_empty() || !digits.bytes().all(|digit| digit.is_ascii_hexdigit()) {
        return None;
    }
    let bytes: Option<Vec<u8>> = (0..digits.len())
        .step_by(2)
        .map(|place| u8::from_str_radix(digits.get(place..place + 2)?, 16).ok())
        .collect();
    Some(bytes?.repeat(times))
}

#[cfg(test)]
mod tests {
    use super::*;

    #[test]
    fn words_of_streams() {
        assert_eq!(part("030b"), Some(vec![0x03, 0x0B]));
        assert_eq!(part("00*3"), Some(vec![0; 3]));
        assert_eq!(part("030B*2"), Some(vec![0x03, 0x0B, 0x03, 0x0B]));
        for bad in [
            "", "0", "0x", "+1", "030", "*3", "00*", "00*x", "00*-1", "0 00",
        ] {
            assert_eq!(part(bad), None, "{bad}");
        }
        let stream = vec![0x03, 0x20, 0x20, 0x04];
        let two = Kind { piece: 2, stream };
        assert_eq!(kind("2", "03 20*2 04"), Some(two));
        assert_eq!(kind("0", "03"), None);
        assert_eq!(kind("1", "03  04"), None);
    }

    #[test]
    fn kinds_by_name() {
        let lines = "# one|9|00\none|1|03\none more|2|04*2\n";
        let kind = |name| kind_of(lines, name).map(|kind| (kind.piece, kind.stream));
        assert_eq!(kind("one"), Some((1, vec![3])));
        assert_eq!(kind("one more"), Some((2, vec![4, 4])));
        assert_eq!(kind("# one"), None);
        assert_eq!(kind("two"), None);
    }
}
