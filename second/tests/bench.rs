//! Document 01, "What was tried at the bench": every line of it, with its exact bytes, and the
//! slips "to keep out".

mod common;

use common::*;

#[test]
fn remote_status_at_start() {
    let mut held = usual_box();
    let told = rs232(&mut held, 1, &hex("02 03 01 41 6E 4D"));
    assert_eq!(told, (0, hex("02 04 41 01 7E 01 3B")));
    assert_eq!(held, usual_box());
}

#[test]
fn white_balance_data() {
    let mut held = usual_box();
    let told = rs232(&mut held, 1, &hex("02 08 01 41 40 21 FF 0F 00 04 43"));
    assert_eq!(told, (0, hex("02 03 41 01 04 B7")));
    assert_eq!(w(&mut held, 1).gain, [4095, 2048, 2048]);
    assert_eq!(w(&mut held, 1).bias, [0, 0, -1024]);
}

#[test]
fn the_first_with_last_byte_4e() {
    let mut held = usual_box();
    let told = rs232_at(&mut held, 1, &hex("02 03 01 41 6E 4E"));
    // Document 01's 5 is 14 with its place since document 02, §8; the bytes stay as they were.
    assert_eq!(told, (14, 5, hex("02 03 41 01 05 B6")));
    assert_eq!(held, usual_box());
}

#[test]
fn volume_40_and_back() {
    let mut held = usual_box();
    let mut set = hex("03 0B 53 4F 4E 59 00 00 00 B0 00 00 11");
    set.extend_from_slice(b"STATset VOLUME 40");
    let told = tcp(&mut held, 1, &set);
    assert_eq!(told, (0, hex("03 0B 53 4F 4E 59 00 00 01 B0 00 00 00")));
    assert_eq!(w(&mut held, 1).volume, 40);

    let told = tcp(&mut held, 1, &packet(0, 0, b"STATget VOLUME"));
    let mut reply = hex("03 0B 53 4F 4E 59 00 00 01 B0 00 00 09");
    reply.extend_from_slice(b"VOLUME 40");
    assert_eq!(told, (0, reply));
}

#[test]
fn volume_100_and_101() {
    let mut held = usual_box();
    let told = tcp(&mut held, 1, &packet(0, 0, b"STATset VOLUME 100"));
    assert_eq!(told, (0, ok(0, 0, b"")));
    assert_eq!(w(&mut held, 1).volume, 100);
    let told = tcp(&mut held, 1, &packet(0, 0, b"STATset VOLUME 101"));
    assert_eq!(told, (6, ok(0, 0, b"")));
    assert_eq!(w(&mut held, 1).volume, 100);
}

#[test]
fn shift_h_minus_30_minus_31_minus_0() {
    let mut held = usual_box();
    let told = tcp(&mut held, 1, &packet(0, 0, b"STATset SHIFTH -30"));
    assert_eq!(told, (0, ok(0, 0, b"")));
    for bad in [&b"STATset SHIFTH -31"[..], b"STATset SHIFTH -0"] {
        let told = tcp(&mut held, 1, &packet(0, 0, bad));
        assert_eq!(told, (6, ok(0, 0, b"")));
        assert_eq!(w(&mut held, 1).shift_h, -30);
    }
}

#[test]
fn request_01_is_ng() {
    let mut held = usual_box();
    let mut bytes = packet(0, 0, b"STATset VOLUME 40");
    bytes[8] = 0x01;
    let told = tcp_at(&mut held, 1, &bytes);
    let reply = hex("03 0B 53 4F 4E 59 00 00 00 B0 00 00 02 F0 50");
    assert_eq!(told, (9, 8, reply));
    assert_eq!(held, usual_box());
}

#[test]
fn community_in_small_letters() {
    let mut held = usual_box();
    let mut bytes = packet(0, 0, b"STATset VOLUME 40");
    bytes[2..6].copy_from_slice(b"sony");
    assert_eq!(tcp(&mut held, 1, &bytes), (4, vec![]));
    assert_eq!(held, usual_box());
}

#[test]
fn data_length_499_and_500() {
    let mut held = usual_box();
    let longest = packet(0, 0, &[b'A'; 499]);
    assert_eq!(longest.len(), 512);
    assert_eq!(tcp(&mut held, 1, &longest), (6, ok(0, 0, b"")));
    let longer = packet(0, 0, &[b'A'; 500]);
    assert_eq!(longer.len(), 513);
    let ng = hex("03 0B 53 4F 4E 59 00 00 00 B0 00 00 02 F0 50");
    assert_eq!(tcp_at(&mut held, 1, &longer), (11, 11, ng));
}

#[test]
fn power_on_twice() {
    let mut held = usual_box();
    let power_on = b"*SCPOWR0000000000000001\n";
    let told = kjw(&mut held, 4, power_on);
    let both = b"*SAPOWR0000000000000000\n*SNPOWR0000000000000001\n";
    assert_eq!(told, (0, both.to_vec()));
    assert!(k(&mut held, 4).power);
    let told = kjw(&mut held, 4, power_on);
    assert_eq!(told, (0, b"*SAPOWR0000000000000000\n".to_vec()));
}

#[test]
fn port_0000() {
    let mut held = usual_box();
    let told = kjw(&mut held, 4, b"*SCINPT0000000100000000\n");
    assert_eq!(told, (6, b"*SAINPTFFFFFFFFFFFFFFFF\n".to_vec()));
    assert_eq!(held, usual_box());
}

#[test]
fn the_advert_program() {
    let printed = second::advert::printed(&advert());
    let expected = "product LMD3250MD\nserial 3106846\ngroup 1\nunit 1\n";
    assert_eq!(printed, expected.as_bytes());
    assert_eq!(second::advert::printed(&advert()[1..]), b"refused 3\n");
}

#[test]
fn slip_unit_ff_without_the_group() {
    let mut held = usual_box();
    assert_eq!(udp(&mut held, &packet(2, 0xFF, b"STATset VOLUME 5")), 0);
    assert_eq!(w(&mut held, 1).volume, 30);
    assert_eq!(w(&mut held, 2).volume, 30);
    assert_eq!(w(&mut held, 3).volume, 5);
}

#[test]
fn slip_answering_a_broadcast() {
    // `udp` checks that nothing was written, whatever the answer.
    let mut held = usual_box();
    assert_eq!(udp(&mut held, &packet(0xFF, 0xFF, b"STATset VOLUME 9")), 0);
    assert_eq!(udp(&mut held, &packet(0xFF, 0xFF, b"STATget VOLUME")), 8);
    assert_eq!(
        udp(&mut held, &packet(0xFF, 0xFF, b"STATset VOLUME 101")),
        6
    );
}

#[test]
fn slip_values_applied_before_the_count() {
    let mut held = usual_box();
    for block in [&[0x40, 0x03, 5, 0, 6][..], &[0x40, 0x01, 5, 0, 6, 0]] {
        assert_eq!(rs232(&mut held, 1, &serial(block)), nak(6));
        assert_eq!(held, usual_box());
    }
}
