//! How document 01, and what landed of document 02, is read where it leaves a choice
//! (docs/DECISIONS.md): a test for each reading. Those of §1 are in `receiver.rs` beside this.

mod common;

use common::*;
use second::address::{addressed, WayIn};
use second::advert::{self, Wanted};
use second::config::{configure, DisplayBox};
use second::flip::{Flip, FlipWord};
use second::panel::{Connector, GroupId, UnitId};
use second::plain::{self, End};

fn words(held: &mut DisplayBox, text: &[u8]) -> Told {
    tcp(held, 1, &packet(0, 0, text))
}

// 22h OFF for the only connector that is ON: ignored, ACK, answer 0. ON and ALL RESET are
// always carried out.
#[test]
fn the_only_connector_that_is_on_stays_on() {
    let mut held = usual_box();
    for code in [0, 2, 4, 5, 6, 7, 8, 9, 10] {
        assert_eq!(rs232(&mut held, 1, &serial(&[0x22, 0x10 | code])), ack());
    }
    let alone = held.clone();
    assert_eq!(rs232(&mut held, 1, &serial(&[0x22, 0x1B])), ack());
    assert_eq!(held, alone);
    // OFF for one that is OFF already changes nothing either.
    assert_eq!(rs232(&mut held, 1, &serial(&[0x22, 0x19])), ack());
    assert_eq!(held, alone);
    assert_eq!(rs232(&mut held, 1, &serial(&[0x22, 0x29])), ack());
    assert!(w(&mut held, 1).connector_is_on(Connector::Hd15));
    assert_eq!(rs232(&mut held, 1, &serial(&[0x22, 0x3F])), ack());
    assert_eq!(held, usual_box());
}

// A box handed in with no connector ON, or with a connector in use that is OFF, is in range.
#[test]
fn no_connector_on_is_in_range() {
    let mut held = usual_box();
    for connector in Connector::ALL {
        w(&mut held, 1).turn_connector(connector, false);
    }
    assert!(held.keeps_the_rules());
    let before = held.clone();
    assert_eq!(rs232(&mut held, 1, &serial(&[0x22, 0x10])), ack());
    assert_eq!(held, before);
    assert_eq!(rs232(&mut held, 1, &serial(&[0x22, 0x20])), ack());
    assert!(w(&mut held, 1).connector_is_on(Connector::Composite));
}

// REMOTE, KEYINHIBIT and the other switches gate nothing. A K panel in standby obeys all
// commands.
#[test]
fn switches_gate_nothing() {
    let mut held = usual_box();
    assert_eq!(words(&mut held, b"STATset REMOTE OFF").0, 0);
    assert_eq!(words(&mut held, b"STATset KEYINHIBIT ON").0, 0);
    assert_eq!(words(&mut held, b"STATset POWERSAVING ON").0, 0);
    assert_eq!(words(&mut held, b"STATset VOLUME 7").0, 0);
    assert_eq!(rs232(&mut held, 1, &serial(&[0x21, 0x01, 0x08])), ack());
    assert_eq!(w(&mut held, 1).volume, 7);
    assert_eq!(w(&mut held, 1).input, Connector::Dvi);

    assert!(!k(&mut held, 4).power);
    assert_eq!(kjw(&mut held, 4, &frame("CVOLU0000000000000029")).0, 0);
    assert_eq!(k(&mut held, 4).volume, 29);
}

// A bad configuration gives 7 and the one box of no panels.
#[test]
fn a_bad_configuration_is_7() {
    let bad: [&[u8]; 10] = [
        b"",
        b"W\x01",
        b"W\x01\x01K",
        b"X\x01\x01",
        b"W\x00\x01",
        b"W\x01\x64",
        b"W\xFF\xFF",
        b"K\x00\x01",
        b"W\x01\x02K\0\0W\x01\x02",
        b"W\x01\x01W\x01\x02W\x01\x03W\x01\x04W\x01\x05W\x01\x06W\x01\x07W\x01\x08W\x01\x09",
    ];
    for description in bad {
        let (answer, new_box) = configure(description);
        assert_eq!(answer.number(), 7);
        assert_eq!(new_box, DisplayBox::of_no_panels());
    }
    let (answer, new_box) = configure(b"W\x63\x63K\0\0K\0\0W\x63\x01W\x01\x63");
    assert_eq!(answer.number(), 0);
    assert_eq!(new_box.panels.len(), 5);
}

// A bad box handed in with a message is never 7: it is answered as a box of no panels and comes
// back as it came.
#[test]
fn a_bad_box_is_a_box_of_no_panels() {
    let spoil: [fn(&mut DisplayBox); 14] = [
        |held| w(held, 2).phase = 101,
        |held| w(held, 2).chroma = 101,
        |held| w(held, 2).volume = 255,
        |held| w(held, 2).shift_h = 31,
        |held| w(held, 2).shift_v = -31,
        |held| w(held, 2).gain[1] = 4096,
        |held| w(held, 2).bias[2] = 1024,
        |held| w(held, 2).bias[0] = -1025,
        |held| k(held, 4).volume = 101,
        |held| k(held, 4).port = 0,
        |held| k(held, 4).port = 10000,
        |held| held.panels[1].unit = UnitId(1),
        |held| held.panels[3].group = GroupId(1),
        |held| held.panels[0].group = GroupId(100),
    ];
    for spoil in spoil {
        let mut held = usual_box();
        spoil(&mut held);
        let before = held.clone();
        let set = packet(0, 0, b"STATset LED ON");
        assert_eq!(tcp(&mut held, 1, &set), (2, vec![]));
        assert_eq!(tcp_in(&mut held, 1, 511, &set), (1, vec![]));
        assert_eq!(rs232(&mut held, 1, &serial(&[0x6E])), (2, vec![]));
        assert_eq!(
            kjw(&mut held, 4, &frame("CTPOW################")),
            (2, vec![])
        );
        let all = packet(0xFF, 0xFF, b"STATset LED ON");
        assert_eq!(udp(&mut held, &all), 4);
        assert_eq!(udp(&mut held, &all[..12]), 3);
        assert_eq!(held, before);
    }
    let nine = (1..=9).map(|unit| (b'W', 1, unit));
    let mut held = DisplayBox {
        panels: nine
            .flat_map(|panel| new_box(&[panel]).panels)
            .collect::<Vec<_>>(),
    };
    assert_eq!(rs232(&mut held, 1, &serial(&[0x6E])), (2, vec![]));
}

// A box of count 0 is a box of no panels.
#[test]
fn a_box_of_count_0() {
    let mut held = DisplayBox::of_no_panels();
    assert_eq!(rs232_in(&mut held, 1, 511, b""), (1, vec![]));
    assert_eq!(rs232(&mut held, 1, &serial(&[0x6E])), (2, vec![]));
    assert_eq!(udp(&mut held, b""), 3);
    assert_eq!(udp(&mut held, &packet(0xFF, 0xFF, b"STATget LED")), 4);
}

// TCP by pair on another panel's link: the panel with the pair obeys, the reply goes into the
// link's area with the request's own first eight bytes. Check 2 looks at the link's panel alone,
// so by pair on a K panel's link is 2.
#[test]
fn by_pair_on_another_link() {
    let mut held = usual_box();
    let set = packet(2, 1, b"STATset VOLUME 9");
    assert_eq!(tcp(&mut held, 1, &set), (0, ok(2, 1, b"")));
    assert_eq!(w(&mut held, 1).volume, 30);
    assert_eq!(w(&mut held, 3).volume, 9);
    let get = packet(2, 1, b"STATget VOLUME");
    assert_eq!(tcp(&mut held, 2, &get), (0, ok(2, 1, b"VOLUME 9")));
    assert_eq!(tcp(&mut held, 4, &get), (2, vec![]));
    assert_eq!(tcp(&mut held, 5, &get), (2, vec![]));
}

// The manuals' 0/unit and group/0 address nobody. UDP 0/0 and UDP by pair are 4.
#[test]
fn ways_of_addressing_that_address_nobody() {
    let mut held = usual_box();
    let by_tcp = [
        (0, 1),
        (1, 0),
        (0, 0xFF),
        (1, 0xFF),
        (0xFF, 0xFF),
        (0xFF, 1),
        (2, 2),
        (100, 1),
        (1, 100),
    ];
    for (group, unit) in by_tcp {
        let set = packet(group, unit, b"STATset LED ON");
        assert_eq!(tcp(&mut held, 1, &set), (4, vec![]));
    }
    let by_udp = [
        (0, 0),
        (1, 1),
        (1, 0),
        (0, 1),
        (0, 0xFF),
        (0xFF, 1),
        (0xFF, 0),
        (3, 0xFF),
        (100, 0xFF),
    ];
    for (group, unit) in by_udp {
        assert_eq!(udp(&mut held, &packet(group, unit, b"STATset LED ON")), 4);
    }
    assert_eq!(held, usual_box());
}

// `addressed` reads the way in and bytes 0 to 7; one of 8 to 12 bytes may be addressed and is
// still answered 3.
#[test]
fn addressed_reads_bytes_0_to_7() {
    let mut held = usual_box();
    let own = packet(0, 0, b"");
    for length in 0..8 {
        assert!(addressed(&held, WayIn::Tcp(1), &own[..length]).is_empty());
    }
    for length in 8..=13 {
        assert_eq!(addressed(&held, WayIn::Tcp(1), &own[..length]), [0]);
    }
    for length in 0..13 {
        assert_eq!(tcp(&mut held, 1, &own[..length]), (3, vec![]));
    }
    let group = packet(1, 0xFF, b"");
    assert_eq!(addressed(&held, WayIn::Udp, &group[..8]), [0, 1]);
    let all = packet(0xFF, 0xFF, b"");
    assert_eq!(addressed(&held, WayIn::Udp, &all[..8]), [0, 1, 2]);
    for place in 0..6 {
        let mut bytes = all.clone();
        bytes[place] ^= 0x20;
        assert!(addressed(&held, WayIn::Udp, &bytes).is_empty());
    }
    assert_eq!(addressed(&held, WayIn::Rs232c(2), b""), [1]);
    assert_eq!(addressed(&held, WayIn::Kjw(4), b""), [3]);
}

// 21h: both marked parts are checked before either is applied; no part marked: ACK, nothing
// changes.
#[test]
fn input_config_checks_both_parts_first() {
    let mut held = usual_box();
    assert_eq!(rs232(&mut held, 1, &serial(&[0x21, 0x03, 0x18])), nak(6));
    assert_eq!(rs232(&mut held, 1, &serial(&[0x21, 0x03, 0x01])), nak(6));
    assert_eq!(rs232(&mut held, 1, &serial(&[0x21, 0x00, 0x11])), ack());
    assert_eq!(rs232(&mut held, 1, &serial(&[0x21, 0xFC, 0xFF])), ack());
    assert_eq!(held, usual_box());
}

// 61h compares the whole byte with 1 and 2.
#[test]
fn white_balance_sense_takes_the_whole_byte() {
    let mut held = usual_box();
    for which in (0..=255).filter(|which| ![1, 2].contains(which)) {
        assert_eq!(rs232(&mut held, 1, &serial(&[0x61, which])), nak(6));
    }
}

// 40h with mask 0, 40h, 80h or C0h: accepted with one data byte, nothing changes.
#[test]
fn a_mask_of_no_value() {
    let mut held = usual_box();
    for mask in [0x00, 0x40, 0x80, 0xC0] {
        assert_eq!(rs232(&mut held, 1, &serial(&[0x40, mask])), ack());
        assert_eq!(rs232(&mut held, 1, &serial(&[0x40, mask, 0])), nak(6));
        assert_eq!(rs232(&mut held, 1, &serial(&[0x40, mask, 0, 0])), nak(6));
    }
    assert_eq!(held, usual_box());
}

// 71h carries that byte and three values, no 04h; NAK carries no error byte.
#[test]
fn white_balance_reply() {
    let mut held = usual_box();
    w(&mut held, 1).gain = [1, 4095, 256];
    w(&mut held, 1).bias = [-1, -1024, 1023];
    let told = rs232(&mut held, 1, &serial(&[0x61, 1]));
    let gains = [0x71, 1, 0x01, 0x00, 0xFF, 0x0F, 0x00, 0x01];
    assert_eq!(told, (0, serial_reply(&gains)));
    let told = rs232(&mut held, 1, &serial(&[0x61, 2]));
    let biases = [0x71, 2, 0xFF, 0x07, 0x00, 0x04, 0xFF, 0x03];
    assert_eq!(told, (0, serial_reply(&biases)));
}

// KJW 6 echoes the request's four letters whatever they are.
#[test]
fn kjw_6_echoes_the_letters() {
    let mut held = usual_box();
    let mut bytes = frame("CPOWR0000000000000000");
    bytes[3..7].copy_from_slice(&[0x00, 0xFF, 0x0A, b'*']);
    let mut reply = frame("APOWRFFFFFFFFFFFFFFFF");
    reply[3..7].copy_from_slice(&[0x00, 0xFF, 0x0A, b'*']);
    assert_eq!(kjw(&mut held, 4, &bytes), (6, reply));
}

// INPT is type and port together for 'changed'. Setting the value that is held: answer alone.
#[test]
fn inpt_changes_by_type_or_port() {
    let mut held = usual_box();
    let answer = frame("AINPT0000000000000000");
    let same = kjw(&mut held, 4, &frame("CINPT0000000100000001"));
    assert_eq!(same, (0, answer.clone()));
    for value in ["0000000300000001", "0000000300009999", "0000000100000001"] {
        let told = kjw(&mut held, 4, &frame(&format!("CINPT{value}")));
        let both = [answer.clone(), frame(&format!("NINPT{value}"))].concat();
        assert_eq!(told, (0, both));
    }
    for same in ["CVOLU", "CAMUT", "CPMUT", "CPOWR"] {
        let text = format!("{same}0000000000000000");
        let told = kjw(&mut held, 4, &frame(&text));
        assert_eq!(told, (0, frame(&text.replace('C', "A"))));
    }
}

/// What a code of the remote control is answered with by panel 4.
fn press(held: &mut DisplayBox, code: u64) -> Told {
    kjw(held, 4, &frame(&format!("CIRCC{code:016}")))
}

/// The answer to an accepted code with this notice behind it, or none.
fn pressed(notice: &str) -> Told {
    let mut bytes = frame("AIRCC0000000000000000");
    if !notice.is_empty() {
        bytes.extend(frame(notice));
    }
    (0, bytes)
}

// §6: "Volume Up and Down move by one and stop at 0 and 100". No change, no notice.
#[test]
fn louder_and_softer() {
    let mut held = usual_box();
    assert_eq!(press(&mut held, 31), pressed(""));
    assert_eq!(held, usual_box());
    for volume in 1..=100 {
        let notice = format!("NVOLU{volume:016}");
        assert_eq!(press(&mut held, 30), pressed(&notice));
        assert_eq!(k(&mut held, 4).volume, volume);
    }
    let loudest = held.clone();
    assert_eq!(press(&mut held, 30), pressed(""));
    assert_eq!(held, loudest);
    for volume in (0..100).rev() {
        let notice = format!("NVOLU{volume:016}");
        assert_eq!(press(&mut held, 31), pressed(&notice));
    }
    assert_eq!(held, usual_box());
}

// §6: "Mute flips AMUT; Picture Off flips PMUT; TV Power flips POWR", and "A change is followed by the
// usual notice with the state's own letters."
#[test]
fn mute_picture_off_and_power() {
    let mut held = usual_box();
    for (code, letters) in [(32, "AMUT"), (50, "PMUT"), (98, "POWR")] {
        for value in [1, 0, 1] {
            let notice = format!("N{letters}{value:016}");
            assert_eq!(press(&mut held, code), pressed(&notice));
        }
    }
    let panel = k(&mut held, 4).clone();
    assert!(panel.audio_mute && panel.picture_mute && panel.power);
    for code in [98, 50, 32] {
        assert_eq!(press(&mut held, code).0, 0);
    }
    assert_eq!(held, usual_box());
}

// §6: "HDMI 1 to 4 choose type 1 and that port." No change, no notice.
#[test]
fn the_four_hdmi_ports() {
    let mut held = usual_box();
    assert_eq!(press(&mut held, 124), pressed(""));
    for (code, port) in [(125, 2), (126, 3), (127, 4), (124, 1)] {
        let notice = format!("NINPT0000000100{port:06}");
        assert_eq!(press(&mut held, code), pressed(&notice));
        assert_eq!(press(&mut held, code), pressed(""));
        assert_eq!(k(&mut held, 4).port, port);
    }
    // The same port of another type is a change.
    assert_eq!(kjw(&mut held, 4, &frame("CINPT0000000300000001")).0, 0);
    assert_eq!(press(&mut held, 124), pressed("NINPT0000000100000001"));
    assert_eq!(held, usual_box());
}

// §6: "Other listed codes are answered and change nothing."
#[test]
fn other_buttons_change_nothing() {
    let with_state = [30, 31, 32, 50, 98, 124, 125, 126, 127];
    let mut others = 0;
    for (_, code) in second::remote::TABLE {
        if !with_state.contains(&code) {
            let mut held = usual_box();
            assert_eq!(press(&mut held, code), pressed(""), "{code}");
            assert_eq!(held, usual_box());
            others += 1;
        }
    }
    assert_eq!(others, 48);
}

// §6: "an unlisted code, or a parameter that isn't sixteen digits, is 6". The number that all sixteen
// digits write. An enquiry IRCC is 6.
#[test]
fn what_is_no_code() {
    let mut held = usual_box();
    let refused = (6, frame("AIRCCFFFFFFFFFFFFFFFF"));
    for code in [0, 1, 4, 28, 29, 36, 97, 100, 102, 128, 131, 140, 255] {
        assert_eq!(press(&mut held, code), refused, "{code}");
    }
    for code in [
        256 + 98,
        1098,
        65_536 + 98,
        4_294_967_296 + 98,
        1_000_000_000_000_098,
        9_800_000_000_000_000,
        9_999_999_999_999_999,
    ] {
        assert_eq!(press(&mut held, code), refused, "{code}");
    }
    for parameter in [
        "################",
        "##############98",
        "0000000000000 98",
        "0000000000000+98",
        "0000000000000062",
        "000000000000001E",
        "000000000000009:",
        "000000000000009/",
        "FFFFFFFFFFFFFFFF",
    ] {
        let told = kjw(&mut held, 4, &frame(&format!("CIRCC{parameter}")));
        // 62h would be 98, and 62 is a button of its own.
        let listed = parameter.ends_with("62");
        let expected = if listed { pressed("") } else { refused.clone() };
        assert_eq!(told, expected, "{parameter}");
    }
    for parameter in ["################", "0000000000000098", "0000000000000000"] {
        let told = kjw(&mut held, 4, &frame(&format!("EIRCC{parameter}")));
        assert_eq!(told, refused, "{parameter}");
    }
    assert_eq!(held, usual_box());
}

// §6: a panel in standby takes every button, as it takes every command; the other K panel hears
// nothing, and a W panel has no such link.
#[test]
fn whose_remote_it_is() {
    let mut held = new_box(&[(b'W', 1, 1), (b'K', 0, 0), (b'K', 0, 0), (b'K', 0, 0)]);
    assert_eq!(press(&mut held, 30), pressed("NVOLU0000000000000001"));
    assert_eq!(k(&mut held, 2).volume + k(&mut held, 3).volume, 0);
    let button = frame("CIRCC0000000000000030");
    assert_eq!(kjw(&mut held, 1, &button), (2, vec![]));
    assert_eq!(kjw_in(&mut held, 2, 511, &button), (1, vec![]));
}

// RESET is the two shifts alone. `+5` and `5` are one value; a number of any length out of range
// is 6 and is never reduced.
#[test]
fn reset_and_numbers() {
    let mut held = usual_box();
    assert_eq!(words(&mut held, b"STATset SHIFTH 5").0, 0);
    let plain = held.clone();
    assert_eq!(words(&mut held, b"STATset SHIFTH +5").0, 0);
    assert_eq!(held, plain);
    assert_eq!(words(&mut held, b"STATset SHIFTV -7").0, 0);
    assert_eq!(words(&mut held, b"STATset PHASE 1").0, 0);
    assert_eq!(words(&mut held, b"STATset RESET").0, 0);
    assert_eq!(w(&mut held, 1).shift_h, 0);
    assert_eq!(w(&mut held, 1).shift_v, 0);
    assert_eq!(w(&mut held, 1).phase, 1);
    let huge = [b"STATset PHASE 1".to_vec(), vec![b'0'; 400]].concat();
    let before = held.clone();
    for bad in [
        &b"STATset PHASE 256"[..],
        b"STATset PHASE 4294967296",
        b"STATset PHASE 18446744073709551616",
        b"STATset SHIFTH 256",
        b"STATset SHIFTH -256",
        &huge,
    ] {
        assert_eq!(words(&mut held, bad), (6, ok(0, 0, b"")));
        assert_eq!(held, before);
    }
}

// A leading space, two spaces, a tab, a further word, or no data is 6.
#[test]
fn words_and_what_parts_them() {
    let mut held = usual_box();
    for bad in [
        &b" STATset LED ON"[..],
        b"STATset  LED ON",
        b"STATset LED  ON",
        b"STATset\tLED ON",
        b"STATset LED\tON",
        b"STATset LED ON ON",
        b"STATset LED",
        b"STATset ON",
        b"STATset",
        b"STATget",
        b"",
    ] {
        assert_eq!(words(&mut held, bad), (6, ok(0, 0, b"")));
    }
    assert_eq!(held, usual_box());
}

// §2: "one final 00h is taken off if there, then all spaces at the end". `40` 00h and `40` space
// 00h are good.
#[test]
fn endings_that_are_taken_off() {
    for ending in [&b""[..], b" ", b"  ", b"\0", b" \0", b"  \0"] {
        let mut held = usual_box();
        let set = [b"STATset VOLUME 40", ending].concat();
        assert_eq!(words(&mut held, &set), (0, ok(0, 0, b"")), "{ending:?}");
        assert_eq!(w(&mut held, 1).volume, 40);
        // "our own replies still end bare".
        let get = [b"STATget VOLUME", ending].concat();
        assert_eq!(words(&mut held, &get), (0, ok(0, 0, b"VOLUME 40")));
        // By UDP the same.
        let off = [b"STATset VOLUME 0", ending].concat();
        assert_eq!(udp(&mut held, &packet(1, 0xFF, &off)), 0);
        assert_eq!(w(&mut held, 2).volume, 0);
    }
    let mut held = usual_box();
    w(&mut held, 1).shift_h = 5;
    let told = words(&mut held, b"STATget RGB RANGE \0");
    assert_eq!(told, (0, ok(0, 0, b"RGB RANGE FULL")));
    assert_eq!(words(&mut held, b"STATset RESET\0"), (0, ok(0, 0, b"")));
    assert_eq!(held, usual_box());
}

// §2: `40` 00h space and `40` 00h 00h are 6. Only 20h is a space.
#[test]
fn endings_that_are_not_taken_off() {
    let mut held = usual_box();
    for ending in [&b"\0 "[..], b"\0\0", b" \0 ", b"\t", b" \t", b"\x01"] {
        for (text, by_udp) in [(&b"STATset VOLUME 40"[..], 6), (b"STATget VOLUME", 8)] {
            let data = [text, ending].concat();
            assert_eq!(words(&mut held, &data), (6, ok(0, 0, b"")), "{data:?}");
            assert_eq!(udp(&mut held, &packet(1, 0xFF, &data)), by_udp);
        }
    }
    // Every byte alone behind the words, and before them.
    for byte in (0..=255).filter(|byte| ![0x00, 0x20, b'0'].contains(byte)) {
        let data = [b"STATset VOLUME 1", &[byte][..]].concat();
        let told = words(&mut held, &data);
        assert_eq!(told.0, if byte.is_ascii_digit() { 0 } else { 6 });
    }
    let mut held = usual_box();
    for byte in 0..=255 {
        let data = [&[byte], &b"STATset LED ON"[..]].concat();
        assert_eq!(words(&mut held, &data), (6, ok(0, 0, b"")));
    }
    assert_eq!(held, usual_box());
}

// §2: "Data of spaces alone, or of none, is not understood. Refusals: 6 as before, judged after the
// trimming."
#[test]
fn what_is_left_after_the_trimming() {
    let mut held = usual_box();
    for bad in [
        &b""[..],
        b" ",
        b"     ",
        b"\0",
        b" \0",
        b"\0 ",
        b"\0\0",
        b"STATset ",
        b"STATset\0",
        b"STATset \0",
        b"STATset VOLUME ",
        b"STATset VOLUME \0",
        b"STATset LED \0",
        b"STATset  LED ON ",
        b" STATset LED ON ",
    ] {
        assert_eq!(words(&mut held, bad), (6, ok(0, 0, b"")), "{bad:?}");
        assert_eq!(udp(&mut held, &packet(0xFF, 0xFF, bad)), 6);
    }
    for bad in [&b"STATget "[..], b"STATget\0"] {
        assert_eq!(words(&mut held, bad), (6, ok(0, 0, b"")), "{bad:?}");
    }
    assert_eq!(words(&mut held, &[b' '; 499]), (6, ok(0, 0, b"")));
    assert_eq!(held, usual_box());
}

// §2: the data length is of the data as sent, and the envelope is judged first.
#[test]
fn the_data_length_is_of_the_data_as_sent() {
    let mut held = usual_box();
    for last in [b' ', 0x00] {
        let mut data = b"STATset VOLUME 40".to_vec();
        data.resize(498, b' ');
        data.push(last);
        assert_eq!(packet(0, 0, &data).len(), 512);
        assert_eq!(words(&mut held, &data), (0, ok(0, 0, b"")));
        assert_eq!(w(&mut held, 1).volume, 40);
        w(&mut held, 1).volume = 30;
        // One space more is too long, whatever is left of it.
        data.insert(17, b' ');
        let told = tcp_at(&mut held, 1, &packet(0, 0, &data));
        assert_eq!(told, (11, 11, ng(0, 0)));
    }
    // A length that leaves the ending out, and one that counts an ending which is not there.
    let mut bytes = packet(0, 0, b"STATset VOLUME 40 ");
    bytes[12] = 17;
    assert_eq!(tcp_at(&mut held, 1, &bytes), (12, 11, ng(0, 0)));
    let mut bytes = packet(0, 0, b"STATset VOLUME 40");
    bytes[12] = 18;
    assert_eq!(tcp_at(&mut held, 1, &bytes), (12, 11, ng(0, 0)));
    assert_eq!(held, usual_box());
}

/// The flip of this word.
fn flip_of(word: FlipWord) -> Flip {
    let mut flip = Flip::AT_START;
    flip.turn(word, true);
    flip
}

// §4: "ON for a flip word makes it the panel's flip; OFF for it makes the flip none if that word's
// flip was in force, and changes nothing otherwise." Every word, ON and OFF, from every flip; 0 and
// OK without data each time, by TCP and by UDP.
#[test]
fn one_flip_three_words() {
    let none = Flip::AT_START;
    let [h, v, hv] = FlipWord::ALL.map(flip_of);
    let told = [
        "FLIPH ON",
        "FLIPH OFF",
        "FLIPV ON",
        "FLIPV OFF",
        "FLIPHV ON",
        "FLIPHV OFF",
    ];
    let cases = [
        (none, [h, none, v, none, hv, none]),
        (h, [h, none, v, h, hv, h]),
        (v, [h, v, v, none, hv, v]),
        (hv, [h, hv, v, hv, hv, none]),
    ];
    for (before, after) in cases {
        for (words, after) in told.iter().zip(after) {
            let set = format!("STATset {words}").into_bytes();
            let mut by_tcp = usual_box();
            w(&mut by_tcp, 1).flip = before;
            let mut expected = by_tcp.clone();
            w(&mut expected, 1).flip = after;
            let told = tcp(&mut by_tcp, 1, &packet(0, 0, &set));
            assert_eq!(told, (0, ok(0, 0, b"")), "{before:?}, {words}");
            assert_eq!(by_tcp, expected, "{before:?}, {words}");

            let mut by_udp = usual_box();
            for link in [1, 2, 3] {
                w(&mut by_udp, link).flip = before;
            }
            let mut expected = by_udp.clone();
            for link in [1, 2] {
                w(&mut expected, link).flip = after;
            }
            assert_eq!(udp(&mut by_udp, &packet(1, 0xFF, &set)), 0);
            assert_eq!(by_udp, expected, "{before:?}, {words}");
        }
    }
}

// §4: "STATget of a flip word says ON for the one in force", and OFF for the other two.
#[test]
fn the_flip_in_force_is_told() {
    let [h, v, hv] = FlipWord::ALL.map(flip_of);
    let cases = [
        (Flip::AT_START, ["FLIPH OFF", "FLIPV OFF", "FLIPHV OFF"]),
        (h, ["FLIPH ON", "FLIPV OFF", "FLIPHV OFF"]),
        (v, ["FLIPH OFF", "FLIPV ON", "FLIPHV OFF"]),
        (hv, ["FLIPH OFF", "FLIPV OFF", "FLIPHV ON"]),
    ];
    for (flip, told) in cases {
        let mut held = usual_box();
        w(&mut held, 1).flip = flip;
        for (name, words) in ["FLIPH", "FLIPV", "FLIPHV"].iter().zip(told) {
            let get = [b"STATget ", name.as_bytes()].concat();
            let reply = ok(0, 0, words.as_bytes());
            assert_eq!(tcp(&mut held, 1, &packet(0, 0, &get)), (0, reply));
        }
    }
    assert_eq!(w(&mut usual_box(), 1).flip, Flip::AT_START);
}

// §4: nothing else has a part in the flip.
#[test]
fn nothing_else_flips() {
    let mut held = usual_box();
    assert_eq!(words(&mut held, b"STATset FLIPV ON").0, 0);
    let before = held.clone();
    assert_eq!(words(&mut held, b"STATset RESET").0, 0);
    for bad in [
        &b"STATset FLIP ON"[..],
        b"STATset FLIP OFF",
        b"STATset FLIPVH ON",
        b"STATset FLIPV",
        b"STATset FLIP V ON",
        b"STATset FLIPH on",
        b"STATset FLIPH ON ON",
        b"STATset FLIPH FLIPV ON",
        b"STATget FLIP",
    ] {
        assert_eq!(words(&mut held, bad), (6, ok(0, 0, b"")), "{bad:?}");
    }
    assert_eq!(held, before);
}

// §5: 8 for `STATget` alone, and for `STATget` and a space, whatever follows; after the trimming.
// "no panel changes and no reply is sent". By TCP nothing changes.
#[test]
fn no_status_by_broadcast() {
    let mut held = usual_box();
    let asked: [(&[u8], u8); 16] = [
        (b"STATget VOLUME", 0),
        (b"STATget CAMERA FOCUS", 0),
        (b"STATget VOLUME ", 0),
        (b"STATget VOLUME\0", 0),
        (b"STATget VOLUME  \0", 0),
        (b"STATget LOUDNESS", 6),
        (b"STATget RESET", 6),
        (b"STATget VOLUME 40", 6),
        (b"STATget VOLUME\t", 6),
        (b"STATget  VOLUME", 6),
        (b"STATget \0 ", 6),
        (b"STATget \xFF", 6),
        (b"STATget", 6),
        (b"STATget ", 6),
        (b"STATget\0", 6),
        (b"STATget  \0", 6),
    ];
    for (data, by_tcp) in asked {
        for group in [1, 2, 0xFF] {
            assert_eq!(udp(&mut held, &packet(group, 0xFF, data)), 8, "{data:?}");
        }
        assert_eq!(words(&mut held, data).0, by_tcp, "{data:?}");
    }
    let longest = [&b"STATget "[..], &[b'A'; 491]].concat();
    assert_eq!(udp(&mut held, &packet(0xFF, 0xFF, &longest)), 8);
    assert_eq!(held, usual_box());
}

// §5: what is no `STATget` and no `STATget` with a space is 6 by UDP, as before; a set is obeyed.
#[test]
fn what_is_no_status_by_broadcast() {
    let mut held = usual_box();
    for data in [
        &b"STATgetVOLUME"[..],
        b"STATgets VOLUME",
        b"STATget\tVOLUME",
        b"STATget\0VOLUME",
        b"STATget\0 ",
        b"STATget\0\0",
        b"STATge",
        b"statget VOLUME",
        b" STATget VOLUME",
        b" STATget",
        b"",
        b" ",
        b"STATset STATget VOLUME",
    ] {
        assert_eq!(udp(&mut held, &packet(1, 0xFF, data)), 6, "{data:?}");
    }
    assert_eq!(held, usual_box());
    assert_eq!(udp(&mut held, &packet(1, 0xFF, b"STATset VOLUME 4")), 0);
    assert_eq!(w(&mut held, 2).volume, 4);
}

// §5: "8, after 5 and before 6". Too short is 3, nobody addressed is 4, and a wrong part of the
// envelope (§8) is told first.
#[test]
fn no_status_by_broadcast_comes_after_5() {
    let mut held = usual_box();
    let good = packet(1, 0xFF, b"STATget VOLUME");
    assert_eq!(udp(&mut held, &good[..12]), 3);
    for (group, unit) in [(3, 0xFF), (0, 0), (1, 1), (0xFF, 1)] {
        let asked = packet(group, unit, b"STATget VOLUME");
        assert_eq!(udp(&mut held, &asked), 4);
    }
    for (place, byte, told) in [
        (8, 1, (9, 8)),
        (9, 0xB1, (10, 9)),
        (10, 1, (10, 9)),
        (11, 1, (12, 11)),
        (11, 2, (11, 11)),
        (12, 13, (12, 11)),
        (12, 15, (12, 11)),
    ] {
        let mut bytes = good.clone();
        bytes[place] = byte;
        assert_eq!(udp_at(&mut held, &bytes), told);
    }
    let mut long = b"STATget VOLUME".to_vec();
    long.resize(500, b' ');
    assert_eq!(udp_at(&mut held, &packet(1, 0xFF, &long)), (11, 11));
    let mut none = new_box(&[(b'K', 0, 0)]);
    assert_eq!(udp(&mut none, &packet(0xFF, 0xFF, b"STATget VOLUME")), 4);
}

// NG echoes the item as it came.
#[test]
fn ng_echoes_the_item() {
    let mut held = usual_box();
    let mut bytes = packet(1, 1, b"STATset LED ON");
    bytes[9..11].copy_from_slice(&[0xB0, 0x01]);
    let reply = hex("03 0B 53 4F 4E 59 01 01 00 B0 01 00 02 F0 50");
    assert_eq!(tcp_at(&mut held, 2, &bytes), (10, 9, reply));
    assert_eq!(held, usual_box());
}

/// What a packet is told by TCP to its panel and to a pair, and by UDP to a group and to all; the
/// reply of each is the NG that document 01 asks for, with the item as it came.
fn told_by_every_way(message: &[u8]) -> (u8, usize) {
    let mut held = usual_box();
    let mut message = message.to_vec();
    let mut told = Vec::new();
    for (group, unit) in [(0, 0), (2, 1)] {
        message[6..8].copy_from_slice(&[group, unit]);
        let (number, place, reply) = tcp_at(&mut held, 1, &message);
        let mut refused = ng(group, unit);
        refused[9..11].copy_from_slice(&message[9..11]);
        assert_eq!(reply, refused);
        told.push((number, place));
    }
    for group in [1, 0xFF] {
        message[6..8].copy_from_slice(&[group, 0xFF]);
        told.push(udp_at(&mut held, &message));
    }
    assert_eq!(told, [told[0]; 4]);
    assert_eq!(held, usual_box());
    told[0]
}

// §8: "9 request, 10 item, 11 over 499, 12 not matching", each with "the place of the first byte of
// the guilty field": 8, 9, 11, 11. Whatever is wrong in the field, its first byte is told.
#[test]
fn which_part_of_a_packet() {
    for data in [&b"STATset LED ON"[..], b"STATget LED", b"no words", b""] {
        let good = packet(0, 0, data);
        let with = |place: usize, field: &[u8]| {
            let mut message = good.clone();
            message[place..place + field.len()].copy_from_slice(field);
            told_by_every_way(&message)
        };
        for byte in 1..=255 {
            assert_eq!(with(8, &[byte]), (9, 8));
            assert_eq!(with(9, &[0xB0 ^ byte]), (10, 9));
            assert_eq!(with(10, &[byte]), (10, 9));
            assert_eq!(with(9, &[0xB0 ^ byte, byte]), (10, 9));
            // With 01h as its high byte the length is 256 and more, but not over 499.
            let told = if byte == 1 { (12, 11) } else { (11, 11) };
            assert_eq!(with(11, &[byte]), told);
            assert_eq!(with(12, &[byte ^ data.len() as u8]), (12, 11));
        }
        for length in 0..=600_u16 {
            let told = match length {
                500.. => (11, 11),
                _ if usize::from(length) == data.len() => continue,
                _ => (12, 11),
            };
            assert_eq!(with(11, &length.to_be_bytes()), told, "{length}");
        }
    }
}

// §8: data lengths about the number of bytes that follow, and about 499.
#[test]
fn data_lengths_and_what_follows() {
    let about = |follows: std::ops::RangeInclusive<usize>,
                 said: std::ops::RangeInclusive<usize>| {
        for follow in follows {
            for said in said.clone() {
                let mut message = packet(0, 0, &vec![b'A'; follow]);
                message[11..13].copy_from_slice(&(said as u16).to_be_bytes());
                let told = if said > 499 {
                    (11, 11)
                } else if said != follow {
                    (12, 11)
                } else {
                    // Such words are 6, with OK and no data, and with place 0.
                    let told = tcp(&mut usual_box(), 1, &message);
                    assert_eq!(told, (6, ok(0, 0, b"")));
                    continue;
                };
                assert_eq!(told_by_every_way(&message), told, "{follow}, {said}");
            }
        }
    };
    about(0..=5, 0..=5);
    about(0..=5, 254..=262);
    about(496..=503, 496..=503);
    about(0..=5, 496..=503);
}

// §8: "in that order within each form, at the old place of 5". Every choice of wrong parts: the first
// of them is told. 4 comes before them, and 8 and 6 come behind.
#[test]
fn the_first_wrong_part_of_a_packet() {
    for request in [0x00, 0x01] {
        for item in [0xB000_u16, 0xB001, 0xA000] {
            for length in [8_u16, 7, 9, 500, 0xFFFF] {
                for data in [&b"STATget "[..], b"no words"] {
                    let mut message = packet(0, 0, data);
                    message[8] = request;
                    message[9..11].copy_from_slice(&item.to_be_bytes());
                    message[11..13].copy_from_slice(&length.to_be_bytes());
                    let told = match (request, item, length) {
                        (0x01, _, _) => (9, 8),
                        (_, 0xB001 | 0xA000, _) => (10, 9),
                        (_, _, 500 | 0xFFFF) => (11, 11),
                        (_, _, 7 | 9) => (12, 11),
                        _ => {
                            let mut held = usual_box();
                            assert_eq!(tcp(&mut held, 1, &message).0, 6);
                            message[6..8].copy_from_slice(&[1, 0xFF]);
                            let asks = data == b"STATget ";
                            assert_eq!(udp(&mut held, &message), if asks { 8 } else { 6 });
                            continue;
                        }
                    };
                    assert_eq!(told_by_every_way(&message), told);
                    // 1 to 4 come first, and have place 0.
                    let mut held = usual_box();
                    assert_eq!(tcp_in(&mut held, 1, 511, &message), (1, vec![]));
                    assert_eq!(tcp(&mut held, 4, &message), (2, vec![]));
                    assert_eq!(tcp(&mut held, 1, &message[..12]), (3, vec![]));
                    message[6] = 9;
                    assert_eq!(tcp(&mut held, 1, &message), (4, vec![]));
                    assert_eq!(udp(&mut held, &message), 4);
                }
            }
        }
    }
}

// §8: "13 byte count, 14 checksum": the count at place 1, the checksum at the last byte, length - 1.
#[test]
fn which_part_of_an_rs232c_message() {
    let mut held = usual_box();
    // 6 to 258 bytes: a count of 255 is the largest.
    for length in 6..=258 {
        let good = serial(&vec![0x6F; length - 5]);
        assert_eq!(good.len(), length);
        assert_eq!(rs232(&mut held, 1, &good), nak(6));
        let mut bytes = good.clone();
        bytes[length - 1] ^= 0x10;
        assert_eq!(rs232_at(&mut held, 1, &bytes), nak_at(14, length - 1));
        // Another byte in the block is a wrong sum too: the checksum is told, wherever the slip is.
        let mut bytes = good.clone();
        bytes[4] ^= 0x01;
        assert_eq!(rs232_at(&mut held, 1, &bytes), nak_at(14, length - 1));
        // A wrong count, with the sum that fits it and without.
        for count in [0, 1, 2, 3, good[1].wrapping_add(1), good[1].wrapping_sub(1)] {
            let mut bytes = good.clone();
            let less = count.wrapping_sub(bytes[1]);
            bytes[1] = count;
            if less != 0 {
                assert_eq!(rs232_at(&mut held, 1, &bytes), nak_at(13, 1));
                bytes[length - 1] = bytes[length - 1].wrapping_sub(less);
                assert_eq!(rs232_at(&mut held, 1, &bytes), nak_at(13, 1));
            }
        }
    }
    // No count fits 259 bytes and more: 256 of them more than 6 are 03h again.
    for more in [253, 254, 256, 1000] {
        let mut bytes = serial(&[0x6E]);
        bytes.extend(vec![0; more]);
        assert_eq!(rs232_at(&mut held, 1, &bytes), nak_at(13, 1));
    }
    assert_eq!(held, usual_box());
}

// §8: of an RS-232C message too, 1 to 4 come first and have place 0, and 6 comes behind.
#[test]
fn the_first_wrong_part_of_an_rs232c_message() {
    let mut held = usual_box();
    for (count, last) in [(3, 0x4E), (4, 0x4C), (4, 0x4D)] {
        let bytes = [0x02, count, 0x01, 0x41, 0x6E, last];
        let told = if count == 3 { (14, 5) } else { (13, 1) };
        assert_eq!(rs232_at(&mut held, 1, &bytes), nak_at(told.0, told.1));
        assert_eq!(rs232_in(&mut held, 1, 511, &bytes), (1, vec![]));
        assert_eq!(rs232(&mut held, 4, &bytes), (2, vec![]));
        assert_eq!(rs232(&mut held, 1, &bytes[..5]), (3, vec![]));
        for (place, byte) in [(0, 0x03), (2, 0x02), (3, 0x40), (3, 0x80)] {
            let mut bytes = bytes;
            bytes[place] = byte;
            assert_eq!(rs232(&mut held, 1, &bytes), (4, vec![]));
        }
    }
    // 6Fh is no command: 6 where nothing of the envelope is wrong.
    assert_eq!(rs232(&mut held, 1, &hex("02 03 01 41 6F 4C")), nak(6));
    let told = rs232_at(&mut held, 1, &hex("02 03 01 41 6F 4D"));
    assert_eq!(told, nak_at(14, 5));
    let told = rs232_at(&mut held, 1, &hex("02 05 01 41 6F 4A"));
    assert_eq!(told, nak_at(13, 1));
    assert_eq!(held, usual_box());
}

// Adverts: group and unit are any byte; a text of zeros is good.
#[test]
fn adverts_take_any_ids() {
    for byte in 0..=255 {
        let mut bytes = advert();
        bytes[120] = byte;
        bytes[121] = byte ^ 0xFF;
        let (answer, fields) = advert::read(&bytes);
        assert_eq!(answer.number(), 0);
        assert_eq!((fields.group, fields.unit), (byte, byte ^ 0xFF));
    }
    let mut bytes = advert();
    bytes[8..20].fill(0);
    assert_eq!(advert::read(&bytes).0.number(), 0);
}

// To C the reader gives the answer number alone; elsewhere also the fields, all zero
// when refused.
#[test]
fn a_refused_advert_has_no_fields() {
    for (place, byte, number) in [(0, 0, 4), (3, 0x0D, 4), (24, 1, 5), (25, 2, 5), (119, 1, 5)] {
        let mut bytes = advert();
        bytes[place] = byte;
        let (answer, fields) = advert::read(&bytes);
        assert_eq!(answer.number(), number);
        assert_eq!(fields, advert::Fields::default());
    }
}

// The C writer takes category, group, unit as bytes, power and error as 16 bits, serial and
// addresses as 32.
#[test]
fn the_writer_and_its_refusals() {
    let good = Wanted {
        category: 0x0C,
        product: b"ABCDEFGHIJKL",
        serial: 0x0102_0304,
        power: 1,
        location: &[b'L'; 24],
        connected: 0x0506_0708,
        accepted: [0x1011_1213, 0x2021_2223, 0x3031_3233, 0xFFFF_FFFF],
        error: 1,
        region: &[0; 24],
        name: b"N\0\0\0\0\0\0\0\0\0\0\0\0\0\0\0\0\0\0\0\0\0\0\0",
        group: 0,
        unit: 255,
    };
    let mut area = [0x5A; 123];
    assert_eq!(advert::write(&mut area, &good).number(), 0);
    assert_eq!(area[122], 0x5A);
    assert_eq!(area[..8], *b"DA\x04\x0CSONY");
    assert_eq!(area[8..26], *b"ABCDEFGHIJKL\x01\x02\x03\x04\0\x01");
    assert_eq!(area[50..58], hex("05 06 07 08 10 11 12 13"));
    assert_eq!(area[66..72], hex("FF FF FF FF 00 01"));
    assert_eq!(area[119..122], [0, 0, 255]);
    let (answer, fields) = advert::read(&area[..122]);
    assert_eq!(answer.number(), 0);
    assert_eq!(fields.serial, good.serial);
    assert_eq!(fields.accepted, good.accepted);

    let refuse = |size: usize, wanted: Wanted<'_>| {
        let mut area = vec![0x5A; size];
        let answer = advert::write(&mut area, &wanted);
        assert!(area.iter().all(|byte| *byte == 0x5A));
        answer.number()
    };
    let short = Wanted {
        product: b"ABC",
        category: 7,
        power: 2,
        ..good.clone()
    };
    assert_eq!(refuse(121, short.clone()), 1);
    assert_eq!(refuse(122, short.clone()), 3);
    let category = Wanted {
        product: good.product,
        ..short
    };
    assert_eq!(refuse(122, category.clone()), 4);
    let power = Wanted {
        category: 0x0B,
        ..category
    };
    assert_eq!(refuse(122, power), 5);
    let region = Wanted {
        region: b"\0X\0\0\0\0\0\0\0\0\0\0\0\0\0\0\0\0\0\0\0\0\0\0",
        ..good.clone()
    };
    assert_eq!(refuse(1024, region), 5);
    let name = Wanted {
        name: &[b'N'; 25],
        ..good
    };
    assert_eq!(refuse(1024, name), 3);
}

// §7: "the plain reader stops at the start of a 65th and says where". A 65th that is unfinished is the
// tail; a stop is only for a whole one.
#[test]
fn the_65th_entry() {
    let full = packet(0, 0, b"").repeat(64);
    let mut overlong = packet(0, 0, b"");
    overlong[11] = 0x02;
    for last in [packet(0, 0, b"STATget LED"), packet(0, 0, b""), overlong] {
        for noise in [&b""[..], b"A", b"\x03\x0BSON"] {
            let start = full.len() + noise.len();
            let buffer = [&full[..], noise, &last].concat();
            let list = plain::list(&buffer);
            assert_eq!(list.entries.len(), 64);
            assert_eq!(list.end, End::Stop(start));
            for cut in 1..last.len() {
                let list = plain::list(&buffer[..start + cut]);
                assert_eq!(list.entries.len(), 64);
                assert_eq!(list.end, End::Tail(start));
            }
        }
    }
    let list = plain::list(&[&full[..], b"noise"].concat());
    assert_eq!((list.entries.len(), list.end), (64, End::Tail(837)));
}

// `advert` prints the product's bytes as they are; an empty product gives `product ` and the
// line's end.
#[test]
fn the_advert_program_prints_bytes() {
    let mut bytes = advert();
    bytes[8..20].fill(0);
    let printed = advert::printed(&bytes);
    assert_eq!(printed, b"product \nserial 3106846\ngroup 1\nunit 1\n");
    bytes[8..20].copy_from_slice(b"\xFF\x0A \x80ABCDEFGH");
    let printed = advert::printed(&bytes);
    assert!(printed.starts_with(b"product \xFF\x0A \x80ABCDEFGH\nserial"));
}
