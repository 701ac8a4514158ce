//! Every port, as EPRT and PORT and as 227 and 229.

use crate::talk::{Step::*, *};

#[test]
fn every_port_through_eprt() {
    let mut gateway = greeted(ALL_ON);
    for port in 0..=65536 {
        let line = format!("EPRT |2|2001:db8:2::31|{port}|\r\n");
        let made = format!("PORT 192,0,2,31,{},{}\r\n", port >> 8, port & 255);
        let good = (1..=65535).contains(&port);
        let expected = if good { &made } else { &line };
        check(
            &mut gateway,
            &[
                (Client(&line), expected, ""),
                (Server("200\r\n"), "", "200\r\n"),
            ],
        );
    }
}

#[test]
fn every_port_through_227() {
    let mut gateway = greeted(ALL_ON);
    for port in 0..=65535 {
        let line = format!("227 (1,2,3,4,{},{})\r\n", port >> 8, port & 255);
        let made = format!("229 Entering Extended Passive Mode (|||{port}|)\r\n");
        let expected = if port != 0 { &made } else { &line };
        check(
            &mut gateway,
            &[
                (Client("EPSV\n"), "PASV\r\n", ""),
                (Server(&line), "", expected),
            ],
        );
    }
}

/// Every octet of the mapped address is written as it is.
#[test]
fn every_mapped_octet() {
    for octet in 0..=255 {
        let mapped = [octet, 255 - octet, 0, octet];
        let (mut gateway, _) = Gateway::setup(CLIENT_ADDRESS, mapped, ALL_ON, SERVER_ADDRESS);
        let outcome = arrive(&mut gateway, CLIENT, "EPRT |2|2001:db8:2::31|256|\r\n");
        let made = format!("PORT {octet},{},0,{octet},1,0\r\n", 255 - octet);
        assert_eq!(text(&outcome.to_server), made);
    }
}
