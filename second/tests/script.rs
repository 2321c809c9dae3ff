//! The script language: what is read, what is `unread`, and the text that comes out.

use second::script::run;

fn answers(script: &[u8]) -> String {
    let mut output = Vec::new();
    run(script, &mut output).unwrap();
    String::from_utf8(output).unwrap()
}

const AT_START: &str = "W 1 2 PHASE 50 CHROMA 50 VOLUME 30 SHIFTH 0 SHIFTV 0 MODE0 NTSC0 \
RGB RANGE FULL REMOTE ON POWERSAVING OFF KEYINHIBIT OFF TALLYGREEN OFF TALLYRED OFF HVDELAY OFF \
BLUEONLY OFF MONOCHR OFF CAMERA FOCUS OFF LED OFF SCREENSAVER OFF SILENTMODE OFF FLIPH OFF \
FLIPV OFF FLIPHV OFF INPUT 0 ON 0 2 4 5 6 7 8 9 10 11 PRESET 3 GAIN 2048 2048 2048 BIAS 0 0 0\n";

#[test]
fn the_records_at_start() {
    let text = answers(b"box W 1 2 K 0 0\nshow 1\nshow 2\nshow 3");
    let k = "K POWR 0 INPT 1 1 VOLU 0 AMUT 0 PMUT 0 SCEN general\n";
    assert_eq!(text, format!("box 0\n{AT_START}{k}none\n"));
}

// §4: "the three flip words say ON for the one in force".
#[test]
fn the_flip_in_force_is_shown() {
    let on = "tcp 1 512 030B534F4E59000000B00000105354415473657420464C495056204F4E\n";
    let text = answers(format!("box W 1 2\n{on}show 1\n").as_bytes());
    assert!(text.ends_with(&AT_START.replace("FLIPV OFF", "FLIPV ON")));
}

#[test]
fn empty_lines_and_comments_are_passed_over() {
    assert_eq!(answers(b""), "");
    assert_eq!(answers(b"\n\n# show 1\n#\n"), "");
    let long = [b"#".to_vec(), vec![b'x'; 100_000], b"\nsum -\n".to_vec()].concat();
    assert_eq!(answers(&long), "yes\n");
}

#[test]
fn the_last_line_may_lack_its_end() {
    assert_eq!(answers(b"sum -\nsum 01"), "yes\nno\n");
}

#[test]
fn lines_that_are_unread() {
    let lines: [&[u8]; 60] = [
        b" ",
        b" show 1",
        b"show 1 ",
        b"show  1",
        b"show\t1",
        b"show 1\r",
        b"\r",
        b"\0",
        b"\xFF\xFE",
        b"show \xC3\xA9",
        b"SHOW 1",
        b"Show 1",
        b"shows 1",
        b"show",
        b"show ",
        b"show 1 2",
        b"show 00",
        b"show 01",
        b"show +1",
        b"show -1",
        b"show 1a",
        b"show 4294967296",
        b"show 99999999999999999999",
        b"udp",
        b"udp 0",
        b"udp 012",
        b"udp 0x",
        b"udp --",
        b"udp -00",
        b"udp 00-",
        b"tcp 1 1025 -",
        b"tcp 1 512",
        b"box W 1",
        b"box W 1 1 ",
        b"box w 1 1",
        b"box X 1 1",
        b"box WW 1 1",
        b"box W 256 1",
        b"box W 01 1",
        b"piece",
        b"piece 1 512",
        b"piece 1 512 - -",
        b"piece 0 512 -",
        b"piece 9 512 -",
        b"piece 01 512 -",
        b"piece 257 512 -",
        b"piece 4294967297 512 -",
        b"piece 1 1025 -",
        b"piece 1 512 0",
        b"piece 1 512 --",
        b"Piece 1 512 -",
        b"pieces 1 512 -",
        b"plain",
        b"plain 0",
        b"plain - -",
        b"plain 1 -",
        b"Plain -",
        b"plains -",
        b"busy 1",
        b"write 122 11 - 0 0 - 0 0 0 0 0 0 - - 1",
    ];
    for line in lines {
        assert_eq!(answers(line), "unread\n", "{line:?}");
    }
}

#[test]
fn unread_lines_change_nothing() {
    let text = answers(b"box W 1 2\nbox W 1\nbox W 1 1000\nshow 1\n");
    assert_eq!(text, format!("box 0\nunread\nunread\n{AT_START}"));
}

#[test]
fn after_box_7_there_are_no_panels() {
    assert_eq!(answers(b"box W 1 2\nbox\nshow 1\n"), "box 0\nbox 7\nnone\n");
}

#[test]
fn panels_that_may_be_written() {
    let sixteen = [b"box".to_vec(), b" W 1 1".repeat(16)].concat();
    assert_eq!(answers(&sixteen), "box 7\n");
    let seventeen = [b"box".to_vec(), b" W 1 1".repeat(17)].concat();
    assert_eq!(answers(&seventeen), "unread\n");
}

#[test]
fn the_longest_words_and_lines() {
    let most = [b"sum ".to_vec(), b"00".repeat(1024)].concat();
    assert_eq!(answers(&most), "yes\n");
    let more = [b"sum ".to_vec(), b"00".repeat(1025)].concat();
    assert_eq!(answers(&more), "unread\n");

    // Two long texts make a line of 4,096 bytes, with one digit more where the number is odd.
    let line = |serial: &str, location: usize| {
        format!(
            "write 122 11 {} {serial} 0 {} 0 0 0 0 0 0 - - 1 1",
            "41".repeat(1024),
            "42".repeat(location)
        )
    };
    let left = 4096 - line("1", 0).len();
    let serial = if left % 2 == 0 { "1" } else { "11" };
    let longest = line(serial, left / 2);
    assert_eq!(longest.len(), 4096);
    assert_eq!(answers(longest.as_bytes()), "answer 3 reply -\n");
    let longer = longest.replacen("122", "1022", 1);
    assert_eq!(longer.len(), 4097);
    assert_eq!(answers(longer.as_bytes()), "unread\n");
}

#[test]
fn links_beyond_the_box_are_answered_by_the_box() {
    let text = answers(b"box W 1 1\ntcp 4294967295 512 -\ntcp 0 512 -\ntcp 0 511 -\nshow 0\n");
    let expected = "box 0\nanswer 2 reply -\nanswer 2 reply -\nanswer 1 reply -\nnone\n";
    assert_eq!(text, expected);
}

#[test]
fn hex_of_either_case_comes_out_in_capitals() {
    let text = answers(b"box W 1 1\nrs232 1 1024 020301416e4d\nudp ff\n");
    assert_eq!(text, "box 0\nanswer 0 reply 020441017E013B\nanswer 3\n");
    let text = answers(b"piece 1 512 030b534f4e59000000b0000000\n");
    let packet = "packet 030B534F4E59000000B0000000";
    assert_eq!(text, format!("{packet}\nanswer 2 reply -\nheld 0\n"));
}

/// STATset VOLUME 40 to the link's own panel, and the OK for it.
const SET: &str = "030B534F4E59000000B00000115354415473657420564F4C554D45203430";
const OK: &str = "answer 0 reply 030B534F4E59000001B0000000";

// "for each packet `packet HEX` and the line that `tcp` would write; then `held N`".
#[test]
fn a_piece_writes_a_packet_and_its_answer_and_what_is_held() {
    let text = answers(format!("box W 1 1\npiece 1 512 {SET}\n").as_bytes());
    assert_eq!(text, format!("box 0\npacket {SET}\n{OK}\nheld 0\n"));
    let (first, last) = SET.split_at(20);
    let script =
        format!("box W 1 1\npiece 1 512 {first}\npiece 1 512 -\npiece 1 512 {last}00030B\n");
    let text = format!("box 0\nheld 10\nheld 10\npacket {SET}\n{OK}\nheld 2\n");
    assert_eq!(answers(script.as_bytes()), text);
    let script = format!("box W 1 1\npiece 1 512 {SET}FF{SET}{SET}03\n");
    let one = format!("packet {SET}\n{OK}\n");
    assert_eq!(
        answers(script.as_bytes()),
        format!("box 0\n{}held 1\n", one.repeat(3))
    );
}

// "each packet goes to the box as by `tcp LINK AREA` at once": the second asks what the first set.
#[test]
fn a_packet_goes_to_the_box_at_once() {
    let get = "030B534F4E59000000B000000E5354415467657420564F4C554D45";
    let told = "answer 0 reply 030B534F4E59000001B0000009564F4C554D45203430";
    let text = answers(format!("box W 1 1\npiece 1 512 {SET}{get}\n").as_bytes());
    assert_eq!(
        text,
        format!("box 0\npacket {SET}\n{OK}\npacket {get}\n{told}\nheld 0\n")
    );
}

// A receiver stands before the box: a packet is handed out whatever the box says of it.
#[test]
fn a_packet_is_handed_out_whatever_the_box_says() {
    let script =
        format!("piece 8 512 {SET}\nbox W 1 1 K 0 0\npiece 1 511 {SET}\npiece 2 512 {SET}\n");
    let text = answers(script.as_bytes());
    let told = |number: u8| format!("packet {SET}\nanswer {number} reply -\nheld 0\n");
    assert_eq!(text, format!("{}box 0\n{}{}", told(2), told(1), told(2)));
}

// "The script starts with ... empty receivers"; each link has its own, and `box` and whole messages
// leave them alone.
#[test]
fn each_link_has_a_receiver_of_its_own() {
    let mut script = "box W 1 1 W 1 2 W 1 3 W 1 4 W 1 5 W 1 6 W 1 7 W 1 8\n".to_string();
    let mut text = "box 0\n".to_string();
    for link in 1..=8 {
        script.push_str(&format!("piece {link} 512 {}\n", &SET[..2 * link]));
        text.push_str(&format!("held {link}\n"));
    }
    script.push_str(&format!(
        "box\nbox W 1 1\ntcp 1 512 {SET}\nrs232 1 512 -\nunread\n"
    ));
    text.push_str(&format!("box 7\nbox 0\n{OK}\nanswer 3 reply -\nunread\n"));
    for link in (1..=8).rev() {
        script.push_str(&format!("piece {link} 512 {}\n", &SET[2 * link..]));
        let told = if link == 1 { OK } else { "answer 2 reply -" };
        text.push_str(&format!("packet {SET}\n{told}\nheld 0\n"));
    }
    assert_eq!(answers(script.as_bytes()), text);
}

// "a message's answer is written `answer A at P` where P is not 0, before ` reply`".
#[test]
fn an_answer_with_its_place() {
    for (order, text) in [
        // Request 01h, item B001h, a length of 500, a length of 1 with no data, and no fault but 6.
        (
            "tcp 1 512 030B534F4E59000001B0000000",
            "answer 9 at 8 reply 030B534F4E59000000B0000002F050",
        ),
        (
            "tcp 1 512 030B534F4E59000000B0010000",
            "answer 10 at 9 reply 030B534F4E59000000B0010002F050",
        ),
        (
            "tcp 1 512 030B534F4E59000000B00001F4",
            "answer 11 at 11 reply 030B534F4E59000000B0000002F050",
        ),
        (
            "tcp 1 512 030B534F4E59000000B0000001",
            "answer 12 at 11 reply 030B534F4E59000000B0000002F050",
        ),
        (
            "tcp 1 512 030B534F4E59000000B0000000",
            "answer 6 reply 030B534F4E59000001B0000000",
        ),
        ("tcp 1 511 030B534F4E59000001B0000000", "answer 1 reply -"),
        ("tcp 2 512 030B534F4E59000001B0000000", "answer 2 reply -"),
        ("udp 030B534F4E59FFFF01B0000000", "answer 9 at 8"),
        ("udp 030B534F4E5901FF00B0010000", "answer 10 at 9"),
        ("udp 030B534F4E59FFFF00B00001F4", "answer 11 at 11"),
        ("udp 030B534F4E5901FF00B0000001", "answer 12 at 11"),
        ("udp 030B534F4E59FFFF00B0000000", "answer 6"),
        ("udp 030B534F4E590FFF01B0000000", "answer 4"),
        // A count of 04h for six bytes, a last byte of 4Eh for 4Dh, and of FFh in seven bytes.
        (
            "rs232 1 512 020401416E4C",
            "answer 13 at 1 reply 0203410105B6",
        ),
        (
            "rs232 1 512 020301416E4E",
            "answer 14 at 5 reply 0203410105B6",
        ),
        (
            "rs232 1 512 020401416101FF",
            "answer 14 at 6 reply 0203410105B6",
        ),
        ("rs232 1 512 020301406E4E", "answer 4 reply -"),
        ("advert 00", "answer 3"),
    ] {
        let written = answers(format!("box W 1 1 K 0 0\n{order}\n").as_bytes());
        assert_eq!(written, format!("box 0\n{text}\n"), "{order}");
    }
    // Off the wire the same: overlong headers with and without another fault, and a whole packet.
    for (packet, told) in [
        ("030B534F4E59000000B0000258", "11 at 11"),
        ("030B534F4E59000002B0000258", "9 at 8"),
        ("030B534F4E59000002B0000000", "9 at 8"),
    ] {
        let script = format!("box W 1 1\npiece 1 512 FF{packet}0003\n");
        let reply = "030B534F4E59000000B0000002F050";
        let text = format!("box 0\npacket {packet}\nanswer {told} reply {reply}\nheld 1\n");
        assert_eq!(answers(script.as_bytes()), text);
    }
}

// §8: "and so does 5 for adverts", with place 0: nothing stands behind the number.
#[test]
fn adverts_keep_5() {
    // Power is 2 in both.
    let read = format!("4441040B534F4E59{}0002{}", "00".repeat(16), "00".repeat(96));
    let (twelve, more) = ("00".repeat(12), "00".repeat(24));
    let written = format!("122 11 {twelve} 0 2 {more} 0 0 0 0 0 0 {more} {more} 1 1");
    let script = format!("advert {read}\nwrite {written}\n");
    assert_eq!(answers(script.as_bytes()), "answer 5\nanswer 5 reply -\n");
}

// 1,024 bytes are the longest piece: 78 packets without data, and 10 bytes.
#[test]
fn the_longest_piece() {
    let empty = "030B534F4E59000000B0000000";
    let piece = format!("{}{}", empty.repeat(78), &empty[..20]);
    assert_eq!(piece.len(), 2048);
    let one = format!("packet {empty}\nanswer 6 reply 030B534F4E59000001B0000000\n");
    let text = answers(format!("box W 1 1\npiece 1 512 {piece}\n").as_bytes());
    assert_eq!(text, format!("box 0\n{}held 10\n", one.repeat(78)));
    assert_eq!(
        answers(format!("piece 1 512 {piece}00\n").as_bytes()),
        "unread\n"
    );
}

// "`plain S:L S:L .. end N`, each entry's start and length, N where the tail begins (or the buffer
// ends); `stop N` in place of `end N` where a 65th entry would start at N".
#[test]
fn what_plain_writes() {
    let empty = "030B534F4E59000000B0000000";
    let overlong = "030b534f4e59000000b00001f4";
    for (bytes, text) in [
        ("-", "plain end 0\n"),
        ("FF", "plain end 1\n"),
        ("FF03", "plain end 1\n"),
        (SET, "plain 0:30 end 30\n"),
        (&format!("{SET}FF{SET}030B"), "plain 0:30 31:30 end 61\n"),
        (&format!("{overlong}{SET}"), "plain 0:13 13:30 end 43\n"),
        (&SET[..58], "plain end 0\n"),
    ] {
        assert_eq!(answers(format!("plain {bytes}\n").as_bytes()), text);
    }
    let full: String = (0..64).map(|place| format!(" {}:13", 13 * place)).collect();
    for (count, behind, end) in [
        (64, "", "end 832"),
        (64, "FF", "end 833"),
        (64, &empty[..24], "end 832"),
        (64, "FF03", "end 833"),
        (65, "", "stop 832"),
        (66, "FF03", "stop 832"),
        (78, &empty[..20], "stop 832"),
    ] {
        let script = format!("plain {}{behind}\n", empty.repeat(count));
        let text = format!("plain{full} {end}\n");
        assert_eq!(answers(script.as_bytes()), text);
    }
    let longer = format!("plain {}{}\n", empty.repeat(78), &empty[..22]);
    assert_eq!(answers(longer.as_bytes()), "unread\n");
}

// `plain` takes nothing from the receivers and the box, and leaves them alone.
#[test]
fn plain_stands_beside_the_receivers() {
    let (first, last) = SET.split_at(20);
    let script = format!(
        "box W 1 1\npiece 1 512 {first}\nplain {last}\nplain {SET}\nshow 1\npiece 1 512 {last}\n"
    );
    let record = AT_START.replace("W 1 2", "W 1 1");
    let text = format!(
        "box 0\nheld 10\nplain end 20\nplain 0:30 end 30\n{record}packet {SET}\n{OK}\nheld 0\n"
    );
    assert_eq!(answers(script.as_bytes()), text);
}

#[test]
fn any_bytes_are_answered_without_a_panic() {
    let mut state: u32 = 1;
    let mut next = || {
        state = state.wrapping_mul(1_664_525).wrapping_add(1_013_904_223);
        (state >> 24) as u8
    };
    let noise: Vec<u8> = (0..200_000).map(|_| next()).collect();
    let lines = noise
        .split(|byte| *byte == b'\n')
        .filter(|line| !line.is_empty() && line[0] != b'#')
        .count();
    assert_eq!(answers(&noise), "unread\n".repeat(lines));
    // Bytes that are no text, behind every order word.
    for order in [
        "box",
        "rs232 1 512",
        "kjw 1 512",
        "tcp 1 512",
        "udp",
        "show",
        "sum",
        "piece 1 512",
        "plain",
    ] {
        for byte in (0..=255).filter(|byte| *byte != b'\n' && *byte != b'-') {
            let line = [order.as_bytes(), b" ", &[byte]].concat();
            let text = answers(&line);
            let is_link = order == "show" && byte.is_ascii_digit();
            assert_eq!(text, if is_link { "none\n" } else { "unread\n" });
        }
    }
}
