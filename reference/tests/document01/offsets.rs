//! "Its offset is written minus taken, modulo 2^32; the gateway's own answers count as written to
//! the client."

use crate::talk::{Step::*, *};

#[test]
fn offsets_follow_the_octets() {
    let mut gateway = fresh(ALL_ON);
    let mut check_offsets = |step: Expected, server: i32, client: i32| {
        check(&mut gateway, &[step]);
        let offsets = (gateway.offset(CLIENT), gateway.offset(SERVER));
        assert_eq!(offsets, (server as u32, client as u32));
    };
    check_offsets((Server("220 "), "", ""), 0, -4);
    check_offsets((Server("hi\r\n"), "", "220 hi\r\n"), 0, 0);
    check_offsets((Client("EPSV 02\n"), "PASV\r\n", ""), -2, 0);
    // 48 octets for 47.
    check_offsets((Server(PASSIVE), "", EXTENDED_PASSIVE), -2, 1);
    check_offsets((Client("EPSV 1\r\n"), "", NOT_SUPPORTED), -10, 37);
    check_offsets((Client("epsv\n"), "PASV\r\n", ""), -9, 37);
    check_offsets((Client("EPS"), "", ""), -12, 37);
    check_offsets((Server("22"), "", ""), -12, 35);
    check_offsets((ClientEnd, "EPS", ""), -9, 35);
    check_offsets((ServerEnd, "", "22"), -9, 37);
}

/// Octets not taken and calls refused do not count.
#[test]
fn offsets_after_stops() {
    let mut gateway = greeted(ALL_ON);
    assert_eq!(gateway.arrive(CLIENT, b"EPSV\r\n", 5, 0).taken, 5);
    assert_eq!(gateway.offset(CLIENT), 5u32.wrapping_neg());
    gateway.arrive(2, b"xxx", PLENTY, PLENTY);
    assert_eq!(gateway.end(CLIENT, 4, 0).answer, 2);
    assert_eq!(gateway.offset(CLIENT), 5u32.wrapping_neg());
    assert_eq!(gateway.end(CLIENT, 5, 0).answer, 0);
    assert_eq!(gateway.offset(CLIENT), 0);
    assert_eq!(gateway.end(CLIENT, 5, 0).answer, 6);
    assert_eq!((gateway.offset(CLIENT), gateway.offset(SERVER)), (0, 0));
}
