//! The table of answers, row by row, its order, and the bounds below it.

use crate::talk::{Step::*, *};

/// Calls that are refused must leave the gateway equal.
#[track_caller]
fn check_refused(gateway: &mut Gateway, answer: u8, direction: u8) {
    let before = gateway.clone();
    let expected = Outcome::answered(answer);
    for (octets, room) in [(&b"x\n"[..], PLENTY), (b"x", 0), (b"", PLENTY), (b"", 0)] {
        assert_eq!(gateway.arrive(direction, octets, room, room), expected);
        assert_eq!(gateway.end(direction, room, room), expected);
    }
    assert_eq!(*gateway, before);
}

#[track_caller]
fn check_stop(outcome: &Outcome, answer: u8, taken: usize, to_server: &str, to_client: &str) {
    let written = (text(&outcome.to_server), text(&outcome.to_client));
    let expected = (to_server.to_string(), to_client.to_string());
    assert_eq!((outcome.answer, outcome.taken), (answer, taken));
    assert_eq!(written, expected);
}

/// A session that owes 16: the greeting and 15 plain replies.
fn owing_sixteen() -> Gateway {
    let mut gateway = fresh(ALL_ON);
    let lines = "NOOP\r\n".repeat(15);
    check(&mut gateway, &[(Client(&lines), &lines, "")]);
    gateway
}

#[test]
fn number_0_all_octets_taken() {
    let mut gateway = greeted(ALL_ON);
    check_stop(
        &arrive(&mut gateway, CLIENT, "EPSV\r\nNO"),
        0,
        8,
        "PASV\r\n",
        "",
    );
    check_stop(&gateway.end(CLIENT, 2, 0), 0, 0, "NO", "");
}

#[test]
fn number_1_at_sixteen_owed() {
    let mut gateway = fresh(ALL_ON);
    let lines = "NOOP\r\n".repeat(20);
    let outcome = arrive(&mut gateway, CLIENT, &lines);
    check_stop(&outcome, 1, 90, &lines[..90], "");
    // It is asked of every octet, also of one that finishes no line.
    let before = gateway.clone();
    check_stop(&arrive(&mut gateway, CLIENT, "N"), 1, 0, "", "");
    assert_eq!(gateway, before);
    // The server's octets go on, and one final reply makes room for one line.
    check(&mut gateway, &[(Server("220 hi\r\n"), "", "220 hi\r\n")]);
    let outcome = arrive(&mut gateway, CLIENT, "NOOP\r\nNOOP\r\n");
    check_stop(&outcome, 1, 6, "NOOP\r\n", "");
}

/// Own answers stand on the queue and count.
#[test]
fn number_1_at_sixteen_own_answers() {
    let mut gateway = greeted(ALL_ON);
    check(&mut gateway, &[(Server("200-a\r\n"), "", "200-a\r\n")]);
    let lines = "EPSV 1\r\n".repeat(17);
    check_stop(&arrive(&mut gateway, CLIENT, &lines), 1, 128, "", "");
    let all = format!("200 ok\r\n{}", NOT_SUPPORTED.repeat(16));
    check(
        &mut gateway,
        &[
            (Server("200 ok\r\n"), "", &all),
            (Client("EPSV 1\r\n"), "", NOT_SUPPORTED),
        ],
    );
}

/// After the server's end nothing leaves the queue, so number 1 stays for good.
#[test]
fn number_1_for_good_after_the_servers_end() {
    let mut gateway = fresh(ALL_ON);
    check(&mut gateway, &[(ServerEnd, "", "")]);
    let lines = "EPSV 1\r\n".repeat(16);
    check_stop(&arrive(&mut gateway, CLIENT, &lines), 1, 120, "", "");
    check_stop(&arrive(&mut gateway, CLIENT, "AUTH\r\n"), 1, 0, "", "");
    check_stop(&gateway.end(CLIENT, 0, 0), 0, 0, "", "");
}

#[test]
fn number_2_in_the_servers_buffer() {
    let mut gateway = greeted(ALL_ON);
    // PASV CR LF is one octet more than the room; the LF waits and nothing of it is written.
    let outcome = gateway.arrive(CLIENT, b"EPSV\r\n", 5, 0);
    check_stop(&outcome, 2, 5, "", "");
    let mut held = greeted(ALL_ON);
    arrive(&mut held, CLIENT, "EPSV\r");
    assert_eq!(gateway, held);
    check_stop(&gateway.arrive(CLIENT, b"\n", 6, 0), 0, 1, "PASV\r\n", "");
}

/// What earlier octets of the same arrival wrote is no longer room.
#[test]
fn number_2_counts_the_room_left() {
    let mut gateway = greeted(ALL_ON);
    let outcome = gateway.arrive(CLIENT, b"NOOP\r\nNOOP\r\n", 11, 0);
    check_stop(&outcome, 2, 11, "NOOP\r\n", "");
    check_stop(&gateway.arrive(CLIENT, b"\n", 6, 0), 0, 1, "NOOP\r\n", "");
}

#[test]
fn number_2_in_the_clients_buffer() {
    let mut gateway = fresh(ALL_ON);
    let outcome = gateway.arrive(SERVER, b"220 hi\r\n", 0, 7);
    check_stop(&outcome, 2, 7, "", "");
    check_stop(&gateway.arrive(SERVER, b"\n", 0, 8), 0, 1, "", "220 hi\r\n");
}

/// An own answer is output of the client octet that finishes the line.
#[test]
fn number_2_for_a_client_octet_by_an_own_answer() {
    let mut gateway = greeted(ALL_ON);
    let outcome = gateway.arrive(CLIENT, b"EPSV 1\r\n", 0, 35);
    check_stop(&outcome, 2, 7, "", "");
    let outcome = gateway.arrive(CLIENT, b"\n", 0, 36);
    check_stop(&outcome, 0, 1, "", NOT_SUPPORTED);
}

/// So are the held server octets that AUTH lets go.
#[test]
fn number_2_for_a_client_octet_by_auth() {
    let mut gateway = greeted(ALL_ON);
    check(&mut gateway, &[(Server("22"), "", "")]);
    let outcome = gateway.arrive(CLIENT, b"AUTH\r\n", 6, 1);
    check_stop(&outcome, 2, 5, "", "");
    let outcome = gateway.arrive(CLIENT, b"\n", 6, 2);
    check_stop(&outcome, 0, 1, "AUTH\r\n", "22");
}

/// Own answers that follow a server line must fit with it.
#[test]
fn number_2_looks_at_an_octets_whole_output() {
    let mut gateway = fresh(ALL_ON);
    check(&mut gateway, &[(Client("EPSV 1\r\n"), "", "")]);
    let outcome = gateway.arrive(SERVER, b"220 hi\r\n", 0, 43);
    check_stop(&outcome, 2, 7, "", "");
    let both = format!("220 hi\r\n{NOT_SUPPORTED}");
    check_stop(&gateway.arrive(SERVER, b"\n", 0, 44), 0, 1, "", &both);
}

#[test]
fn number_2_at_the_512th_octet_and_after_it() {
    let mut gateway = greeted(ALL_ON);
    let line = "x".repeat(520);
    let outcome = gateway.arrive(CLIENT, &octets(&line), 511, 0);
    check_stop(&outcome, 2, 511, "", "");
    let outcome = gateway.arrive(CLIENT, b"xxxx", 514, 0);
    check_stop(&outcome, 2, 3, &line[..514], "");
}

#[test]
fn number_2_at_an_end() {
    let mut gateway = greeted(ALL_ON);
    check(&mut gateway, &[(Client("EPS"), "", "")]);
    check(&mut gateway, &[(Server("22"), "", "")]);
    let before = gateway.clone();
    check_stop(&gateway.end(CLIENT, 2, PLENTY), 2, 0, "", "");
    check_stop(&gateway.end(SERVER, PLENTY, 1), 2, 0, "", "");
    assert_eq!(gateway, before);
    // Each end looks only at the buffer it writes to.
    check_stop(&gateway.end(CLIENT, 3, 0), 0, 0, "EPS", "");
    check_stop(&gateway.end(SERVER, 0, 2), 0, 0, "", "22");
}

#[test]
fn held_octets_need_no_room() {
    let mut gateway = fresh(ALL_ON);
    let outcome = gateway.arrive(CLIENT, &[b'x'; 511], 0, 0);
    check_stop(&outcome, 0, 511, "", "");
    let outcome = gateway.arrive(SERVER, &[b'x'; 511], 0, 0);
    check_stop(&outcome, 0, 511, "", "");
}

#[test]
fn number_3_for_every_other_direction() {
    let (dead, _) = Gateway::setup(CLIENT_ADDRESS, MAPPED, 16, SERVER_ADDRESS);
    for direction in 2..=255 {
        check_refused(&mut greeted(ALL_ON), 3, direction);
        check_refused(&mut dead.clone(), 3, direction);
    }
    let mut gateway = owing_sixteen();
    check(&mut gateway, &[(ClientEnd, "", ""), (ServerEnd, "", "")]);
    check_refused(&mut gateway, 3, 2);
}

#[test]
fn number_4_after_a_refused_setup() {
    let (mut gateway, answer) = Gateway::setup(CLIENT_ADDRESS, MAPPED, 4, SERVER_ADDRESS);
    assert_eq!(answer, 5);
    check_refused(&mut gateway, 4, CLIENT);
    check_refused(&mut gateway, 4, SERVER);
    assert_eq!((gateway.offset(CLIENT), gateway.offset(SERVER)), (0, 0));
}

/// "With 5 the record is not live and otherwise all zero": the addresses too.
#[test]
fn number_5_for_bad_flags() {
    let (dead, _) = Gateway::setup([0; 16], [0; 4], 255, [0; 4]);
    for flags in 0..=255 {
        let (gateway, answer) = Gateway::setup(CLIENT_ADDRESS, MAPPED, flags, SERVER_ADDRESS);
        let good = [0, 1, 2, 3, 6, 7, 8, 9, 10, 11, 14, 15].contains(&flags);
        assert_eq!(answer, if good { 0 } else { 5 }, "flags {flags}");
        assert_eq!(gateway == dead, !good, "flags {flags}");
    }
}

#[test]
fn number_6_after_an_end() {
    let mut gateway = owing_sixteen();
    check(&mut gateway, &[(ClientEnd, "", "")]);
    check_refused(&mut gateway, 6, CLIENT);
    check(&mut gateway, &[(Server("2"), "", ""), (ServerEnd, "", "2")]);
    check_refused(&mut gateway, 6, SERVER);
}

#[test]
fn number_6_after_an_end_behind_auth() {
    let mut gateway = greeted(ALL_ON);
    check(&mut gateway, &[(Client("AUTH\r\n"), "AUTH\r\n", "")]);
    check(&mut gateway, &[(ClientEnd, "", ""), (ServerEnd, "", "")]);
    check_refused(&mut gateway, 6, CLIENT);
    check_refused(&mut gateway, 6, SERVER);
}

/// AUTH that comes to the head later opens no side that has ended.
#[test]
fn number_6_after_an_end_before_auth() {
    let mut gateway = greeted(ALL_ON);
    check(&mut gateway, &[(ServerEnd, "", "")]);
    check(&mut gateway, &[(Client("AUTH\r\nx"), "AUTH\r\nx", "")]);
    check_refused(&mut gateway, 6, SERVER);
}

#[test]
fn number_1_comes_before_2() {
    let mut gateway = owing_sixteen();
    check_stop(&gateway.arrive(CLIENT, b"N", 0, 0), 1, 0, "", "");
}

/// "An empty arrival answers 0 unless 3, 4 or 6 applies."
#[test]
fn an_empty_arrival_answers_0() {
    let mut gateway = owing_sixteen();
    let before = gateway.clone();
    check_stop(&gateway.arrive(CLIENT, b"", 0, 0), 0, 0, "", "");
    check_stop(&gateway.arrive(SERVER, b"", 0, 0), 0, 0, "", "");
    assert_eq!(gateway, before);
}

/// Without octets 255 "one octet writes at most 512 octets to the server": reached by a line of 512.
#[test]
fn most_octets_to_the_server() {
    let line = format!("{}\r\n", "x".repeat(510));
    for last in ["\n", "x"] {
        let mut gateway = greeted(ALL_ON);
        check(&mut gateway, &[(Client(&line[..511]), "", "")]);
        let whole = format!("{}{last}", &line[..511]);
        check(&mut gateway, &[(Client(last), &whole, "")]);
    }
}

/// And "at most 1,280 to the client": a line of 512 and 16 answers of 48.
#[test]
fn most_octets_to_the_client() {
    let mut gateway = greeted(ALL_ON);
    let line = format!("200 {}\r\n", "x".repeat(506));
    check(&mut gateway, &[(Server("200-a\r\n"), "", "200-a\r\n")]);
    check(&mut gateway, &[(Client(&"ALGS\r\n".repeat(16)), "", "")]);
    check(&mut gateway, &[(Server(&line[..511]), "", "")]);
    let outcome = gateway.arrive(SERVER, b"\n", PLENTY, 1279);
    check_stop(&outcome, 2, 0, "", "");
    let all = format!("{line}{}", NOT_IMPLEMENTED.repeat(16));
    assert_eq!(all.len(), 1280);
    let outcome = gateway.arrive(SERVER, b"\n", 0, 1280);
    check_stop(&outcome, 0, 1, "", &all);
}
