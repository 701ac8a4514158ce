//! Request 4, "Foreign addresses refused": which 227 gives a 425, and what the flag leaves alone.

use crate::talk::{Step::*, *};

const STRICT_EPSV: u8 = EPSV_ON | STRICT;
const STRICT_ALL: u8 = ALL_ON | STRICT;

/// Of the server's address 198.51.100.7.
const OWN: &str = "227 Entering Passive Mode (198,51,100,7,237,19)\r\n";
const FOREIGN: &str = PASSIVE;

/// What a line becomes in a strict session of the server with a translated EPSV owed.
fn answer_from(server: [u8; 4], line: &str) -> String {
    let mut gateway = fresh_with(STRICT_EPSV, server);
    arrive(&mut gateway, SERVER, "220\r\n");
    check(&mut gateway, &[(Client("EPSV\r\n"), "PASV\r\n", "")]);
    text(&arrive(&mut gateway, SERVER, line).to_client)
}

#[track_caller]
fn check_answers(lines: &[&str], expected: &str) {
    for line in lines {
        for end in ["\r\n", "\n"] {
            let line = format!("{line}{end}");
            assert_eq!(answer_from(SERVER_ADDRESS, &line), expected, "{line}");
        }
    }
}

#[track_caller]
fn check_passes(lines: &[&str]) {
    for line in lines {
        let line = format!("{line}\r\n");
        assert_eq!(answer_from(SERVER_ADDRESS, &line), line);
    }
}

/// "A readable 227 answering a translated EPSV whose address differs from the control channel's
/// server address gives the client `425 Can't open data connection.` instead of the 229."
#[test]
fn a_foreign_address_gives_a_425() {
    check_greeted(
        STRICT_EPSV,
        &[
            (Client("EPSV\r\n"), "PASV\r\n", ""),
            (Server(FOREIGN), "", NO_CONNECTION),
            (Client("EPSV\r\n"), "PASV\r\n", ""),
            (Server(OWN), "", EXTENDED_PASSIVE),
        ],
    );
}

/// The mapped address stands for the client, and is as foreign as any.
#[test]
fn only_the_servers_address_is_its_own() {
    check_answers(
        &[
            "227 192,0,2,31,237,19",
            "227 0,0,0,0,237,19",
            "227 127,0,0,1,237,19",
            "227 255,255,255,255,237,19",
            "227 7,100,51,198,237,19",
            "227 198,51,100,8,237,19",
            "227 198,51,100,70,237,19",
            "227 198,51,10,7,237,19",
            "227 x (1,2,3,4,0,1)",
            "227 1,2,3,4,255,255, not 198,51,100,7,237,19",
        ],
        NO_CONNECTION,
    );
    check_answers(
        &[
            "227 198,51,100,7,237,19",
            "227 x (198,51,100,7,237,19)",
            "227 =198,51,100,7,237,19,8",
            "227 198,51,100,7,237,19 or 1,2,3,4,5,6",
        ],
        EXTENDED_PASSIVE,
    );
}

#[test]
fn each_octet_of_the_address_counts() {
    for octet in 0..=255 {
        let server = [octet, 255 - octet, octet ^ 1, octet];
        for place in 0..4 {
            for other in [0, 1, 7, 51, 128, 200, 254, 255, octet] {
                let mut address = server;
                address[place] = other;
                let [a, b, c, d] = address;
                let answer = answer_from(server, &format!("227 {a},{b},{c},{d},237,19\r\n"));
                let expected = if address == server {
                    EXTENDED_PASSIVE
                } else {
                    NO_CONNECTION
                };
                assert_eq!(answer, expected, "{server:?} {address:?}");
            }
        }
    }
}

/// Addresses are values: leading zeros make none foreign.
#[test]
fn addresses_are_compared_by_value() {
    check_answers(
        &[
            "227 198,051,100,007,237,019",
            "227 198,51,100,07,237,19",
            "227 (198,051,100,7,237,19)",
        ],
        EXTENDED_PASSIVE,
    );
    check_answers(
        &["227 198,051,100,070,237,19", "227 198,051,010,007,237,19"],
        NO_CONNECTION,
    );
    let zeros = "227 0,00,000,0,237,19\r\n";
    assert_eq!(answer_from([0; 4], zeros), EXTENDED_PASSIVE);
    assert_eq!(answer_from([0, 0, 0, 1], zeros), NO_CONNECTION);
}

/// With port 0 a 227 is none that can be read, whatever its address.
#[test]
fn port_0_passes() {
    check_passes(&[
        "227 192,0,2,31,0,0",
        "227 (192,0,2,31,00,000)",
        "227 198,51,100,7,0,0",
    ]);
}

/// Numbers that differ before the place where it can't be read make no 425.
#[test]
fn an_unreadable_227_passes() {
    check_passes(&[
        "227",
        "227 ",
        "227 no numbers",
        "227 192,0,2,31",
        "227 192,0,2,31,237",
        "227 192,0,2,31,237,",
        "227 192,0,2,31,237,256",
        "227 192,0,2,31,237,0019",
        "227 192,0,2,256,237,19",
        "227 192,0,2,031x,237,19",
        "227 192.0.2.31,237,19",
        "227 Mode 4 (192,0,2,31,237,19)",
        "227 0192,0,2,31,237,19",
    ]);
}

/// No other line is looked at for an address.
#[test]
fn other_answers_to_epsv_pass() {
    check_passes(&[
        "200 192,0,2,31,237,19",
        "229 Entering Extended Passive Mode (|||60691|)",
        "425 192,0,2,31,237,19",
        "127 192,0,2,31,237,19",
        "227-192,0,2,31,237,19",
        "227,192,0,2,31,237,19",
        " 227 192,0,2,31,237,19",
    ]);
}

#[test]
fn a_foreign_227_of_512_octets_is_refused_and_one_of_513_flows() {
    let whole = format!("227 1,2,3,4,5,6{}\r\n", "x".repeat(495));
    let flowing = format!("227 1,2,3,4,5,6{}\r\n", "x".repeat(496));
    assert_eq!((whole.len(), flowing.len()), (512, 513));
    assert_eq!(answer_from(SERVER_ADDRESS, &whole), NO_CONNECTION);
    assert_eq!(answer_from(SERVER_ADDRESS, &flowing), flowing);
}

/// In a reply of several lines, as its last or inside it, a 227 passes as before.
#[test]
fn a_foreign_227_in_a_longer_reply_passes() {
    let reply = format!("227-x\r\n{FOREIGN}");
    let help = format!("214-x\r\n{FOREIGN}214 x\r\n");
    for line in [&reply, &help] {
        check_greeted(
            STRICT_EPSV,
            &[
                (Client("EPSV\r\nEPSV\r\n"), "PASV\r\nPASV\r\n", ""),
                (Server(line), "", line),
                (Server(FOREIGN), "", NO_CONNECTION),
                (Server(FOREIGN), "", FOREIGN),
            ],
        );
    }
}

/// Lines that belong to no reply of its own spoil nothing.
#[test]
fn a_foreign_227_behind_other_lines() {
    for line in ["150 wait\r\n", "150-a\r\n150 b\r\n", "hello\r\n", "\r\n"] {
        check_greeted(
            STRICT_EPSV,
            &[
                (Client("EPSV\r\n"), "PASV\r\n", ""),
                (Server(line), "", line),
                (Server(FOREIGN), "", NO_CONNECTION),
            ],
        );
    }
}

/// The client sent PASV itself, or EPSV that was not translated, or nothing at all.
#[test]
fn a_foreign_227_for_no_translated_epsv_passes() {
    check_fresh(STRICT_ALL, &[(Server(FOREIGN), "", FOREIGN)]);
    check_greeted(STRICT_ALL, &[(Server(FOREIGN), "", FOREIGN)]);
    for line in ["PASV\r\n", "EPSV x\r\n", "NOOP\r\n"] {
        let steps = [(Client(line), line, ""), (Server(FOREIGN), "", FOREIGN)];
        check_greeted(STRICT_ALL, &steps);
    }
    let steps = [
        (Client("EPSV\r\n"), "EPSV\r\n", ""),
        (Server(FOREIGN), "", FOREIGN),
    ];
    check_greeted(STRICT, &steps);
}

/// It is one reply, the translated EPSV's: what stands behind on the queue comes next.
#[test]
fn a_425_removes_the_kind() {
    let then_own = format!("{NO_CONNECTION}{NOT_SUPPORTED}");
    check_greeted(
        STRICT_EPSV,
        &[
            (
                Client("EPSV\r\nEPSV 1\r\nEPSV\r\nPASV\r\n"),
                "PASV\r\nPASV\r\nPASV\r\n",
                "",
            ),
            (Server(FOREIGN), "", &then_own),
            (Server(OWN), "", EXTENDED_PASSIVE),
            (Server(FOREIGN), "", FOREIGN),
            (Client("EPSV 1\r\n"), "", NOT_SUPPORTED),
        ],
    );
}

/// The queue is as full after a 425 as after a 229.
#[test]
fn a_425_makes_room_for_one_line() {
    for line in [OWN, FOREIGN] {
        let mut gateway = greeted(STRICT_EPSV);
        arrive(&mut gateway, CLIENT, &"EPSV\r\n".repeat(16));
        assert_eq!(arrive(&mut gateway, CLIENT, "NOOP\r\n").answer, 1);
        arrive(&mut gateway, SERVER, line);
        let outcome = arrive(&mut gateway, CLIENT, "NOOP\r\nNOOP\r\n");
        assert_eq!((outcome.answer, outcome.taken), (1, 6));
    }
}

/// ALGS changes the switches alone, and tells of them alone.
#[test]
fn algs_leaves_the_strict_form() {
    check_greeted(
        EPRT_SUPPORTED | STRICT,
        &[
            (Client("ALGS STATUS64\r\n"), "", "216 NONE\r\n"),
            (Client("ALGS ENABLE64\r\n"), "", "216 EPSVEPRT\r\n"),
            (Client("EPSV\r\n"), "PASV\r\n", ""),
            (Server(FOREIGN), "", NO_CONNECTION),
            (Client("ALGS DISABLE64\r\n"), "", "216 NONE\r\n"),
            (Client("ALGS ENABLE64\r\n"), "", "216 EPSVEPRT\r\n"),
            (Client("EPSV\r\n"), "PASV\r\n", ""),
            (Client("ALGS DISABLE64\r\n"), "", ""),
            (Server(FOREIGN), "", &format!("{NO_CONNECTION}216 NONE\r\n")),
        ],
    );
    check_greeted(STRICT, &[(Client("ALGS ENABLE64\r\n"), "", "216 EPSV\r\n")]);
}

/// Without bit 3 the four octets are not looked at, nor does anything stay of them.
#[test]
fn without_the_flag_every_address_is_taken() {
    for server in [[198, 51, 100, 7], [192, 0, 2, 31], [0; 4], [255; 4]] {
        for flags in [0, 1, 2, 3, 6, 7] {
            let gateway = fresh_with(flags, server);
            assert_eq!(gateway, fresh(flags));
            let strict = fresh_with(flags | STRICT, server);
            assert_eq!(strict == fresh(flags | STRICT), server == SERVER_ADDRESS);
            assert_ne!(strict, gateway);
        }
        let mut gateway = fresh_with(EPSV_ON, server);
        arrive(&mut gateway, SERVER, "220\r\n");
        for line in [OWN, FOREIGN] {
            let steps = [
                (Client("EPSV\r\n"), "PASV\r\n", ""),
                (Server(line), "", EXTENDED_PASSIVE),
            ];
            check(&mut gateway, &steps);
        }
    }
}

/// EPRT knows the client's addresses and not the server's.
#[test]
fn eprt_is_as_before() {
    let line = "EPRT |2|2001:db8:2::31|5282|\r\n";
    let made = "PORT 192,0,2,31,20,162\r\n";
    check_greeted(STRICT_ALL, &[(Client(line), made, "")]);
    check_greeted(STRICT_EPSV, &[(Client(line), line, "")]);
}

/// The room is that of the 425, 33 octets, and of the own answers behind it.
#[test]
fn a_425_and_what_follows_it_must_fit() {
    for (lines, all) in [
        ("EPSV\r\n", NO_CONNECTION.to_string()),
        (
            "EPSV\r\nEPSV 1\r\n",
            format!("{NO_CONNECTION}{NOT_SUPPORTED}"),
        ),
    ] {
        let mut gateway = greeted(STRICT_EPSV);
        arrive(&mut gateway, CLIENT, lines);
        let before_lf = FOREIGN.len() - 1;
        let outcome = gateway.arrive(SERVER, FOREIGN.as_bytes(), 0, all.len() - 1);
        assert_eq!((outcome.answer, outcome.taken), (2, before_lf));
        assert_eq!(text(&outcome.to_client), "");
        let outcome = gateway.arrive(SERVER, b"\n", 0, all.len());
        assert_eq!((outcome.answer, outcome.taken), (0, 1));
        assert_eq!(text(&outcome.to_client), all);
    }
}

#[test]
fn a_425_counts_as_written() {
    let mut gateway = greeted(STRICT_EPSV);
    arrive(&mut gateway, CLIENT, "EPSV\r\n");
    arrive(&mut gateway, SERVER, FOREIGN);
    let shorter = (FOREIGN.len() - NO_CONNECTION.len()) as u32;
    assert_eq!(gateway.offset(SERVER), shorter.wrapping_neg());
}

/// A line that its side's end cuts is no line, and passes.
#[test]
fn a_foreign_227_without_its_lf_passes_at_the_end() {
    let held = FOREIGN.trim_end();
    check_greeted(
        STRICT_EPSV,
        &[
            (Client("EPSV\r\n"), "PASV\r\n", ""),
            (Server(held), "", ""),
            (ServerEnd, "", held),
        ],
    );
}

/// "Replies owed to commands before AUTH still follow their rules"; behind it nothing is read.
#[test]
fn a_foreign_227_before_and_behind_auth() {
    check_greeted(
        STRICT_EPSV,
        &[
            (
                Client("EPSV\r\nAUTH TLS\r\nEPSV\r\n"),
                "PASV\r\nAUTH TLS\r\nEPSV\r\n",
                "",
            ),
            (Server(FOREIGN), "", NO_CONNECTION),
            (Server(FOREIGN), "", FOREIGN),
        ],
    );
}

/// A command inside the line passes ahead of the 425, and a data octet 255 goes with the line.
#[test]
fn telnet_octets_in_a_foreign_227() {
    check_greeted(
        STRICT_EPSV,
        &[
            (Client("EPSV\r\nEPSV\r\n"), "PASV\r\nPASV\r\n", ""),
            (
                Server("227 (192,0,\u{ff}\u{f1}2,31,237,19)\r\n"),
                "",
                &format!("\u{ff}\u{f1}{NO_CONNECTION}"),
            ),
            (
                Server("227 \u{ff}\u{ff}192,0,2,31,237,19\u{ff}\u{ff}\r\n"),
                "",
                NO_CONNECTION,
            ),
        ],
    );
}
