//! "Errors that look reasonable."

use crate::talk::{Step::*, *};

/// "Turning every 227 into a 229: the client may have sent PASV itself."
#[test]
fn a_227_for_the_clients_own_pasv_passes() {
    check_greeted(
        ALL_ON,
        &[
            (Client("PASV\r\n"), "PASV\r\n", ""),
            (Client("EPSV\r\n"), "PASV\r\n", ""),
            (Server(PASSIVE), "", PASSIVE),
            (Server(PASSIVE), "", EXTENDED_PASSIVE),
            (Server(PASSIVE), "", PASSIVE),
        ],
    );
}

/// "Writing a 522 at once while earlier replies are owed, or inside a reply."
#[test]
fn a_522_waits_for_earlier_replies() {
    let then_522 = format!("200 ok\r\n{NOT_SUPPORTED}");
    check_greeted(
        ALL_ON,
        &[
            (Client("NOOP\r\n"), "NOOP\r\n", ""),
            (Client("EPSV 1\r\n"), "", ""),
            (Server("200 ok\r\n"), "", &then_522),
        ],
    );
}

#[test]
fn a_522_waits_for_the_greeting() {
    let then_522 = format!("220 hi\r\n{NOT_SUPPORTED}");
    check_fresh(
        ALL_ON,
        &[
            (Client("EPSV 1\r\n"), "", ""),
            (Server("220 hi\r\n"), "", &then_522),
        ],
    );
}

#[test]
fn a_522_waits_inside_a_reply() {
    let then_522 = format!("421 now\r\n{NOT_SUPPORTED}");
    check_greeted(
        ALL_ON,
        &[
            (Server("421-going\r\n"), "", "421-going\r\n"),
            (Client("EPSV 1\r\n"), "", ""),
            (Server(" down\r\n"), "", " down\r\n"),
            (Server("421 now\r\n"), "", &then_522),
        ],
    );
}

/// "Rewriting the last line of a reply opened with `227-`: its opening never closes."
#[test]
fn a_227_that_closes_a_reply_passes() {
    check_greeted(
        ALL_ON,
        &[
            (Client("EPSV\r\n"), "PASV\r\n", ""),
            (Server("227-more\r\n"), "", "227-more\r\n"),
            (Server(PASSIVE), "", PASSIVE),
            (Client("EPSV\r\n"), "PASV\r\n", ""),
            (Server(PASSIVE), "", EXTENDED_PASSIVE),
        ],
    );
}

/// "Forgetting held octets at the end of a stream."
#[test]
fn held_octets_pass_at_an_end() {
    check_fresh(
        ALL_ON,
        &[
            (Server("22"), "", ""),
            (Client("EPS"), "", ""),
            (ServerEnd, "", "22"),
            (ClientEnd, "EPS", ""),
        ],
    );
}

/// "Stopping at 16 owed after AUTH, when the queue no longer counts."
#[test]
fn sixteen_owed_after_auth_stop_nothing() {
    let mut gateway = fresh(ALL_ON);
    for _ in 0..14 {
        check(&mut gateway, &[(Client("NOOP\r\n"), "NOOP\r\n", "")]);
    }
    check(
        &mut gateway,
        &[
            (Client("AUTH TLS\r\n"), "AUTH TLS\r\n", ""),
            (Client("\u{16}\u{3}\n\n"), "\u{16}\u{3}\n\n", ""),
            (Client("EPSV 1\r\n"), "EPSV 1\r\n", ""),
        ],
    );
}
