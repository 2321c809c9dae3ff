//! Lines that are no orders, and lines that only just are.

use crate::make::WriteWords;

/// A `write` line of exactly this length, its texts too long to be good.
pub fn long_write_line(length: usize) -> Vec<u8> {
    let mut words = WriteWords::good();
    words.product = vec![b'P'; 1024];
    words.location = Vec::new();
    let left = length.saturating_sub(words.line().len() - 1);
    if !left.is_multiple_of(2) {
        words.serial.push('1');
    }
    words.location = vec![b'L'; left / 2];
    words.line().into_bytes()
}

/// Lines that try every rule of the script language, once each.
pub fn lines() -> Vec<Vec<u8>> {
    let texts: [&[u8]; 133] = [
        b" ",
        b"  ",
        b"-",
        b"\t",
        b"\r",
        b"\0",
        b"\x7F",
        b"\xFF",
        b"\xC3\xA9",
        b"hello",
        b"bo",
        b"boxx",
        b"box ",
        b" box",
        b"BOX W 1 1",
        b"Box W 1 1",
        b"box W",
        b"box W 1",
        b"box W 1 1 ",
        b"box  W 1 1",
        b"box W 1 1 K",
        b"box W 1 1 K 0",
        b"box W 1 1 0",
        b"box w 1 1",
        b"box k 0 0",
        b"box X 1 1",
        b"box WW 1 1",
        b"box 1 1 W",
        b"box W 256 1",
        b"box W 1 256",
        b"box W 01 1",
        b"box W 1 01",
        b"box W -1 1",
        b"box W +1 1",
        b"box W 1 4294967296",
        b"box W 1 4294967297",
        b"box K 00 0",
        b"box W 1 1\r",
        b"box W 1\t1",
        b"show",
        b"show ",
        b" show 1",
        b"show  1",
        b"show 1 ",
        b"show 1 1",
        b"show 01",
        b"show 00",
        b"show +1",
        b"show -1",
        b"show -",
        b"show 1x",
        b"show x",
        b"show 1.0",
        b"show 0x1",
        b"show 4294967296",
        b"show 4294967297",
        b"show 18446744073709551617",
        b"show 10000000000000000000000000000000000000001",
        b"show\t1",
        b"show 1\t",
        b"show 1\r",
        b"show 1\0",
        b"Show 1",
        b"SHOW 1",
        b"rs232",
        b"rs232 1",
        b"rs232 1 512",
        b"rs232 1 512 - -",
        b"rs232 1 1025 -",
        b"rs232 1 65536 -",
        b"rs232 1 4294967808 -",
        b"rs232 1 0512 -",
        b"rs232 01 512 -",
        b"rs232 1 512 0",
        b"rs232 1 512 020301416E4",
        b"rs232 1 512 020301416E4G",
        b"rs232 1 512 02 03 01 41 6E 4D",
        b"rs232 1 512 0x0203",
        b"rs232 1 512 --",
        b"rs232 1 512 -02",
        b"rs232 1 512 02-",
        b"rs232 1 512 +2",
        b"rs232c 1 512 -",
        b"RS232 1 512 -",
        b"kjw 1 512",
        b"kjw 1 512 2A5",
        b"tcp 1 512",
        b"tcp 1 512 030b534g",
        b"udp",
        b"udp ",
        b"udp 1 512 -",
        b"udp - -",
        b"udp 0",
        b"udp 0303B",
        b"udp \xFF\xFF",
        b"advert",
        b"advert 4",
        b"sum",
        b"sum 1",
        b"sum 0 0",
        b"sum 00 00",
        b"write",
        b"piece",
        b"piece 1",
        b"piece 1 512",
        b"piece 1 512 -",
        b"piece 1 512 - -",
        b"piece 1 512 0",
        b"piece 1 512 030B5",
        b"piece 1 1025 -",
        b"piece 01 512 -",
        b"piece 0 512 -",
        b"piece 9 512 -",
        b"Piece 1 512 -",
        b"pieces 1 512 -",
        b"plain",
        b"plain ",
        b"plain -",
        b"plain - -",
        b"plain 1 -",
        b"plain 0",
        b"plain 030B5",
        b"plain 03 0B",
        b"Plain -",
        b"plains -",
        b"busy 1",
        b"free 1",
        b"hear -",
        b"period",
        b"find 122 1 11",
        b"label - -",
        b"save 1024",
        b"move 1 1 1",
    ];
    let mut lines: Vec<Vec<u8>> = texts.iter().map(|text| text.to_vec()).collect();
    lines.push(b"load -".to_vec());
    lines.push([b"box".to_vec(), b" W 1 1".repeat(17)].concat());
    lines.push([b"box".to_vec(), b" K 0 0".repeat(18)].concat());
    for digits in [2046, 2047, 2048, 2049, 2050] {
        for order in [
            "sum ",
            "udp ",
            "advert ",
            "tcp 1 512 ",
            "rs232 1 512 ",
            "kjw 1 512 ",
            "piece 1 512 ",
            "plain ",
        ] {
            lines.push([order.as_bytes().to_vec(), vec![b'0'; digits]].concat());
        }
    }
    for length in [4090, 4094, 4095, 4096, 4097, 4098, 8192, 8193] {
        lines.push([b"sum ".to_vec(), vec![b'0'; length - 4]].concat());
        lines.push(vec![b' '; length]);
        lines.push([b"show ".to_vec(), vec![b'1'; length - 5]].concat());
    }
    for length in 4090..=4100 {
        lines.push(long_write_line(length));
    }
    lines.push(vec![b'x'; 70_000]);
    lines
}

/// `write` lines with a word that no such order takes.
pub fn bad_write_lines() -> Vec<String> {
    let good = WriteWords::good().line();
    let words: Vec<&str> = good.split(' ').collect();
    let mut lines = Vec::new();
    for place in 1..words.len() {
        for bad in [
            "",
            "x",
            "00x",
            "256",
            "65536",
            "4294967296",
            "01",
            "+1",
            "-1",
            "4294967295",
        ] {
            let mut changed = words.clone();
            changed[place] = bad;
            lines.push(changed.join(" "));
        }
        let mut fewer = words.clone();
        fewer.remove(place);
        lines.push(fewer.join(" "));
    }
    lines.push(format!("{good} 1"));
    lines.push(format!("{good} "));
    lines
}

#[cfg(test)]
mod tests {
    use super::*;

    #[test]
    fn a_long_line_is_as_long_as_asked() {
        for length in 4090..=4100 {
            assert_eq!(long_write_line(length).len(), length);
        }
    }
}
