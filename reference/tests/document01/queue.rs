//! The queue of replies owed: own answers in their order, and the AUTH step.

use crate::talk::{Step::*, *};

#[test]
fn own_answers_keep_their_order() {
    let first = format!("200 a\r\n{NOT_SUPPORTED}{NOT_IMPLEMENTED}");
    let second = "200 b\r\n216 EPSVEPRT\r\n";
    check_greeted(
        ALL_ON,
        &[
            (Client("NOOP\r\nEPSV 1\r\nEPSV ALL\r\n"), "NOOP\r\n", ""),
            (Client("\r\nALGS STATUS64\r\n"), "\r\n", ""),
            (Server("200 a\r\n"), "", &first),
            (Server("200 b\r\n"), "", second),
        ],
    );
}

/// "Every finished client line before AUTH, an empty one included", owes one reply.
#[test]
fn every_finished_line_owes_one() {
    let long = format!("{}\n", "x".repeat(600));
    for line in ["\n", "\r\n", " \r\n", "NOOP\n", &long] {
        check_greeted(
            ALL_ON,
            &[
                (Client(line), line, ""),
                (Client("EPSV 1\r\n"), "", ""),
                (
                    Server("200 a\r\n"),
                    "",
                    &format!("200 a\r\n{NOT_SUPPORTED}"),
                ),
            ],
        );
    }
}

/// "Held octets alone leave no reply unfinished": own answers overtake them.
#[test]
fn own_answers_overtake_held_octets() {
    check_greeted(
        ALL_ON,
        &[
            (Server("22"), "", ""),
            (Client("ALGS STATUS64\r\n"), "", "216 EPSVEPRT\r\n"),
            (Server("0 x\r\n"), "", "220 x\r\n"),
        ],
    );
}

#[test]
fn own_answers_wait_for_a_flowing_line() {
    let start = format!("200 {}", "x".repeat(508));
    let then_522 = format!("\n{NOT_SUPPORTED}");
    check_greeted(
        ALL_ON,
        &[
            (Server(&start), "", &start),
            (Client("EPSV 1\r\n"), "", ""),
            (Server("\n"), "", &then_522),
        ],
    );
}

/// A final reply with an own answer first passes and removes nothing.
#[test]
fn a_final_reply_does_not_remove_an_own_answer() {
    let then_522 = format!("200 b\r\n{NOT_SUPPORTED}");
    check_greeted(
        ALL_ON,
        &[
            (Server("200-a\r\n"), "", "200-a\r\n"),
            (Client("EPSV 1\r\nEPSV\r\n"), "PASV\r\n", ""),
            (Server("200 b\r\n"), "", &then_522),
            (Server(PASSIVE), "", EXTENDED_PASSIVE),
        ],
    );
}

/// A 1xx reply that ends lets them out too.
#[test]
fn own_answers_follow_the_end_of_a_preliminary_reply() {
    let then_522 = format!("100 b\r\n{NOT_SUPPORTED}");
    check_greeted(
        ALL_ON,
        &[
            (Server("100-a\r\n"), "", "100-a\r\n"),
            (Client("EPSV 1\r\n"), "", ""),
            (Server("100 b\r\n"), "", &then_522),
        ],
    );
}

/// "After each octet", not after an end: own answers kept back at the server's end are lost.
#[test]
fn own_answers_are_not_written_after_the_servers_end() {
    check_greeted(
        ALL_ON,
        &[
            (Server("200-a\r\n20"), "", "200-a\r\n"),
            (Client("EPSV 1\r\n"), "", ""),
            (ServerEnd, "", "20"),
            (Client("EPSV 1\r\nNOOP\r\n"), "NOOP\r\n", ""),
            (Client("AUTH\r\nx"), "AUTH\r\nx", ""),
            (ClientEnd, "", ""),
        ],
    );
    check_greeted(
        ALL_ON,
        &[(ServerEnd, "", ""), (Client("EPSV 1\r\n"), "", "")],
    );
}

/// The client's end keeps nothing back.
#[test]
fn own_answers_are_written_after_the_clients_end() {
    let then_522 = format!("220 hi\r\n{NOT_SUPPORTED}");
    check_fresh(
        ALL_ON,
        &[
            (Client("EPSV 1\r\n"), "", ""),
            (ClientEnd, "", ""),
            (Server("220 hi\r\n"), "", &then_522),
        ],
    );
}

#[test]
fn auth_makes_the_server_pass_at_once() {
    check_greeted(
        ALL_ON,
        &[
            (Client("AUTH TLS\r\n"), "AUTH TLS\r\n", ""),
            (Server("2"), "", "2"),
            (Server("34 go\r\n\u{16}\u{3}"), "", "34 go\r\n\u{16}\u{3}"),
        ],
    );
}

/// "So replies owed to commands before AUTH still follow their rules."
#[test]
fn replies_before_auth_follow_their_rules() {
    let then_own = format!("{EXTENDED_PASSIVE}{NOT_SUPPORTED}");
    check_greeted(
        ALL_ON,
        &[
            (
                Client("EPSV\r\nEPSV 1\r\nAUTH TLS\r\nEPSV\r\n"),
                "PASV\r\nAUTH TLS\r\nEPSV\r\n",
                "",
            ),
            (Server("227"), "", ""),
            (Server(&PASSIVE[3..]), "", &then_own),
            (Server("234"), "", "234"),
            (Server(" go\r\n22"), "", " go\r\n22"),
        ],
    );
}

/// Whatever the reply to AUTH, there is no way back.
#[test]
fn a_refused_auth_stays_transparent() {
    for reply in ["234 go\r\n", "334 go\r\n", "431 no\r\n", "500 no\r\n"] {
        check_greeted(
            ALL_ON,
            &[
                (Client("AUTH TLS\r\n"), "AUTH TLS\r\n", ""),
                (Server(reply), "", reply),
                (Client("EPSV\r\nEPSV 1\r\n"), "EPSV\r\nEPSV 1\r\n", ""),
                (Server(PASSIVE), "", PASSIVE),
            ],
        );
    }
}

/// The AUTH step waits neither for a reply to end nor for a flowing line.
#[test]
fn the_auth_step_does_not_wait() {
    let long = format!("200 {}", "x".repeat(600));
    for before in ["220-x\r\n", "220-x\r\nhello\r\n", &long] {
        check_greeted(
            ALL_ON,
            &[
                (Server(before), "", before),
                (Client("AUTH\r\n"), "AUTH\r\n", ""),
                (Server("22"), "", "22"),
            ],
        );
    }
    check_greeted(
        ALL_ON,
        &[
            (Server("220-x\r\n22"), "", "220-x\r\n"),
            (Client("AUTH\r\n"), "AUTH\r\n", "22"),
            (Server("0"), "", "0"),
        ],
    );
}

/// Own answers in front of AUTH do wait, and AUTH behind them.
#[test]
fn auth_waits_behind_own_answers() {
    let then_522 = format!("220 y\r\n{NOT_SUPPORTED}");
    check_greeted(
        ALL_ON,
        &[
            (Server("220-x\r\n"), "", "220-x\r\n"),
            (Client("EPSV 1\r\nAUTH\r\n"), "AUTH\r\n", ""),
            (Server("220 y"), "", ""),
            (Server("\r\n"), "", &then_522),
            (Server("22"), "", "22"),
        ],
    );
}

#[test]
fn auth_before_the_greeting() {
    check_fresh(
        ALL_ON,
        &[
            (Client("AUTH\r\nAUTH\r\n"), "AUTH\r\nAUTH\r\n", ""),
            (Server("220"), "", ""),
            (Server("-hi\r\n220 hi"), "", "220-hi\r\n"),
            (Server("\r\n"), "", "220 hi\r\n"),
            (Server("2"), "", "2"),
            (ServerEnd, "", ""),
            (ClientEnd, "", ""),
        ],
    );
}

/// A server whose octets are held at its end passes them, AUTH owed or not.
#[test]
fn a_server_end_before_auth_is_at_the_head() {
    check_fresh(
        ALL_ON,
        &[
            (Client("AUTH\r\n"), "AUTH\r\n", ""),
            (Server("220"), "", ""),
            (ServerEnd, "", "220"),
            (Client("x"), "x", ""),
        ],
    );
}

#[test]
fn ends_of_one_side_leave_the_other() {
    check_greeted(
        ALL_ON,
        &[
            (Client("EPSV\r\n"), "PASV\r\n", ""),
            (ClientEnd, "", ""),
            (Server(PASSIVE), "", EXTENDED_PASSIVE),
            (ServerEnd, "", ""),
        ],
    );
    check_greeted(
        ALL_ON,
        &[(ServerEnd, "", ""), (Client("EPSV\r\n"), "PASV\r\n", "")],
    );
}

/// A flowing line cut by the end owes nothing and holds nothing.
#[test]
fn an_end_within_a_flowing_line() {
    let line = "x".repeat(600);
    check_greeted(
        ALL_ON,
        &[
            (Client(&line), &line, ""),
            (Server(&line), "", &line),
            (ClientEnd, "", ""),
            (ServerEnd, "", ""),
        ],
    );
}
