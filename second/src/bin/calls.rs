//! `calls TIMES ORDER..`: what one call of the second program costs, for `./bench calls`.
//!
//! Makes a box of eight panels, reads one order in the words of docs/SCRIPTS.md, and makes its call
//! so many times, with nothing else in the loop. Prints how many calls, the nanoseconds that the
//! loop took, and what the last call gave. `scripts/calls.c` is the same for the box.

use std::env;
use std::hint::black_box;
use std::process::ExitCode;
use std::time::Instant;

use second::advert::{self, Wanted};
use second::answer::Answer;
use second::config::{configure, DisplayBox};
use second::message::{receive, Way};
use second::script::answer_text;

/// The panels of the script that `./bench instructions` counts.
const PANELS: &[u8] = b"W\x01\x01W\x01\x02W\x02\x01W\x02\x02W\x03\x01W\x03\x02K\x00\x00W\x04\x01";

fn main() -> ExitCode {
    let words: Vec<String> = env::args().skip(1).collect();
    let words: Vec<&str> = words.iter().map(String::as_str).collect();
    match run(&words) {
        Some(line) => {
            println!("{line}");
            ExitCode::SUCCESS
        }
        None => {
            eprintln!("usage: calls TIMES ORDER.., the order being rs232, kjw, tcp, udp, advert or write with its words");
            ExitCode::from(2)
        }
    }
}

/// The line to print; nothing where the words are no order.
fn run(words: &[&str]) -> Option<String> {
    let [times, order @ ..] = words else {
        return None;
    };
    let times: u32 = times.parse().ok().filter(|times| *times > 0)?;
    match order {
        ["udp", bytes] => by_udp(times, &hex(bytes)?),
        ["advert", bytes] => read_advert(times, &hex(bytes)?),
        ["write", area, fields @ ..] => write_advert(times, area.parse().ok()?, fields),
        [way, link, area, bytes] => on_a_link(
            times,
            way,
            link.parse().ok()?,
            area.parse().ok()?,
            &hex(bytes)?,
        ),
        _ => None,
    }
}

/// Makes the call so many times: the nanoseconds that it took, and what the last call gave.
fn repeated<T>(times: u32, mut call: impl FnMut() -> T) -> (u128, T) {
    let start = Instant::now();
    for _ in 1..times {
        black_box(call());
    }
    let last = black_box(call());
    (start.elapsed().as_nanos(), last)
}

fn eight_panels() -> Option<DisplayBox> {
    let (answer, held) = configure(PANELS);
    (answer == Answer::CarriedOut).then_some(held)
}

fn on_a_link(times: u32, way: &str, link: u32, area: usize, bytes: &[u8]) -> Option<String> {
    let mut held = eight_panels()?;
    let mut lent = vec![0; area];
    let area = lent.as_mut_slice();
    // The way in is told apart outside the loop: a match in it would be the caller's cost.
    let (took, outcome) = match way {
        "rs232" => repeated(times, || {
            receive(&mut held, Way::Rs232c { link, area }, bytes)
        }),
        "kjw" => repeated(times, || receive(&mut held, Way::Kjw { link, area }, bytes)),
        "tcp" => repeated(times, || receive(&mut held, Way::Tcp { link, area }, bytes)),
        _ => return None,
    };
    let told = told(times, took, outcome.answer, outcome.place);
    Some(with_reply(told, &lent[..outcome.written]))
}

fn by_udp(times: u32, bytes: &[u8]) -> Option<String> {
    let mut held = eight_panels()?;
    let (took, outcome) = repeated(times, || receive(&mut held, Way::Udp, bytes));
    Some(told(times, took, outcome.answer, outcome.place))
}

/// The fields are made too, and seen to be used; only the answer is printed, as for the box.
fn read_advert(times: u32, bytes: &[u8]) -> Option<String> {
    let (took, answer) = repeated(times, || black_box(&advert::read(bytes)).0);
    Some(told(times, took, answer, 0))
}

fn write_advert(times: u32, area: usize, words: &[&str]) -> Option<String> {
    if words.len() != 15 {
        return None;
    }
    let mut area = vec![0; area];
    let texts = (
        hex(words[1])?,
        hex(words[4])?,
        hex(words[11])?,
        hex(words[12])?,
    );
    let address = |word: usize| words[word].parse().ok();
    let wanted = Wanted {
        category: words[0].parse().ok()?,
        product: &texts.0,
        serial: words[2].parse().ok()?,
        power: words[3].parse().ok()?,
        location: &texts.1,
        connected: address(5)?,
        accepted: [address(6)?, address(7)?, address(8)?, address(9)?],
        error: words[10].parse().ok()?,
        region: &texts.2,
        name: &texts.3,
        group: words[13].parse().ok()?,
        unit: words[14].parse().ok()?,
    };
    let (took, answer) = repeated(times, || advert::write(&mut area, &wanted));
    let written = if answer == Answer::CarriedOut {
        advert::LENGTH
    } else {
        0
    };
    Some(with_reply(told(times, took, answer, 0), &area[..written]))
}

/// The answer as in a script, with its place where it has one (document 02, §8).
fn told(times: u32, took: u128, answer: Answer, place: usize) -> String {
    format!("{times} {took} {}", answer_text(answer, place))
}

fn with_reply(told: String, reply: &[u8]) -> String {
    let mut hex: String = reply.iter().map(|byte| format!("{byte:02X}")).collect();
    if reply.is_empty() {
        hex.push('-');
    }
    format!("{told} reply {hex}")
}

fn hex(word: &str) -> Option<Vec<u8>> {
    if word == "-" {
        return Some(Vec::new());
    }
    word.as_bytes()
        .chunks(2)
        .map(|pair| match std::str::from_utf8(pair) {
            Ok(text) if pair.len() == 2 => u8::from_str_radix(text, 16).ok(),
            _ => None,
        })
        .collect()
}

#[cfg(test)]
mod tests {
    use super::*;

    /// What is printed behind the nanoseconds.
    fn told(order: &str) -> Option<String> {
        let words: Vec<&str> = ["3"].into_iter().chain(order.split(' ')).collect();
        let line = run(&words)?;
        let mut words = line.splitn(3, ' ');
        assert_eq!(words.next(), Some("3"));
        assert!(words.next().unwrap().parse::<u128>().is_ok());
        words.next().map(str::to_string)
    }

    // The answer is told as in a script, with its place where that is not 0 (document 02, §8).
    #[test]
    fn answers_and_their_places() {
        for (order, text) in [
            ("rs232 1 512 020301416E4D", "answer 0 reply 020441017E013B"),
            (
                "rs232 1 512 020301416E4E",
                "answer 14 at 5 reply 0203410105B6",
            ),
            ("rs232 9 512 020301416E4E", "answer 2 reply -"),
            (
                "tcp 1 512 030B534F4E59000001B0000000",
                "answer 9 at 8 reply 030B534F4E59000000B0000002F050",
            ),
            ("udp 030B534F4E59FFFF00B00001F4", "answer 11 at 11"),
            ("udp 030B534F4E59FFFF00B0000000", "answer 6"),
            ("advert 00", "answer 3"),
        ] {
            assert_eq!(told(order).as_deref(), Some(text), "{order}");
        }
        assert_eq!(told("show 1"), None);
    }
}
