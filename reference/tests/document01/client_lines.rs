//! "Lines" and "Client lines", with the corners where their words leave a choice.

use crate::talk::{Step::*, *};

/// Lines that must go to the server as they came.
#[track_caller]
fn check_pass(flags: u8, lines: &[&str]) {
    for line in lines {
        let line = format!("{line}\r\n");
        check_greeted(flags, &[(Client(&line), &line, "")]);
    }
}

/// Lines that must go to the server as another line.
#[track_caller]
fn check_become(flags: u8, lines: &[&str], made: &str) {
    for line in lines {
        check_greeted(flags, &[(Client(&format!("{line}\r\n")), made, "")]);
    }
}

/// Lines that must go nowhere and be answered by the gateway.
#[track_caller]
fn check_answered(flags: u8, lines: &[&str], answer: &str) {
    for line in lines {
        check_greeted(flags, &[(Client(&format!("{line}\r\n")), "", answer)]);
    }
}

#[test]
fn one_cr_is_left_out() {
    check_pass(
        ALL_ON,
        &["EPSV\r", "EPSV 2\r", "EPSV 1\r", "ALGS\r", "EPSV ALL\r"],
    );
    check_greeted(ALL_ON, &[(Client("EPSV\n"), "PASV\r\n", "")]);
    check_greeted(ALL_ON, &[(Client("EPSV 1\n"), "", NOT_SUPPORTED)]);
    check_answered(ALL_ON, &["ALGS STATUS64\r"], NOT_IMPLEMENTED);
    // A CR with no LF after it ends nothing.
    check_greeted(
        ALL_ON,
        &[
            (Client("EPSV\r"), "", ""),
            (Client("\r"), "", ""),
            (Client("\n"), "EPSV\r\r\n", ""),
        ],
    );
}

#[test]
fn letter_case_is_that_of_letters_alone() {
    check_become(ALL_ON, &["EPSV", "epsv", "ePsV", "ePSv 2"], "PASV\r\n");
    check_answered(ALL_ON, &["EPSV ALL", "epsv aLl"], NOT_IMPLEMENTED);
    check_answered(ALL_ON, &["algs Status64"], "216 EPSVEPRT\r\n");
    // 64 as octets with another bit: not the digits.
    check_answered(ALL_ON, &["ALGS STATUS\u{16}\u{14}"], NOT_IMPLEMENTED);
    check_pass(ALL_ON, &["EPS\u{d6}", "EPS\u{16}", "EPSV \u{c1}LL"]);
}

#[test]
fn only_octet_32_is_a_space() {
    check_become(ALL_ON, &["EPSV ", "EPSV   2  ", "EPSV    "], "PASV\r\n");
    check_pass(ALL_ON, &["EPSV\t2", "EPSV 2\t", " EPSV", "EPSV\0", " ", ""]);
    check_pass(ALL_ON, &["EPSVX", "EPS", "EPSV2", "XEPSV"]);
    // A line that passes keeps its spaces and its bare LF.
    check_greeted(ALL_ON, &[(Client("EPSV  x \n"), "EPSV  x \n", "")]);
}

/// "An unfinished line ... itself ... once the client has ended": never judged.
#[test]
fn an_end_judges_nothing() {
    for line in ["AUTH", "AUTH TLS\r", "ALGS DISABLE64\r", "EPSV", "EPSV 1"] {
        check_greeted(
            ALL_ON,
            &[
                (Client(line), "", ""),
                (Server("22"), "", ""),
                (ClientEnd, line, ""),
                (Server("0 x\r\n"), "", "220 x\r\n"),
            ],
        );
    }
}

#[test]
fn a_line_of_512_is_judged_whole_and_one_of_513_is_not() {
    let whole = format!("EPSV {:0>505}\r\n", 2);
    let flowing = format!("EPSV {:0>506}\r\n", 2);
    assert_eq!((whole.len(), flowing.len()), (512, 513));
    check_greeted(ALL_ON, &[(Client(&whole), "PASV\r\n", "")]);
    check_greeted(ALL_ON, &[(Client(&flowing), &flowing, "")]);
    let whole = format!("ALGS{}\r\n", " ".repeat(506));
    let flowing = format!("ALGS{}\r\n", " ".repeat(507));
    check_greeted(ALL_ON, &[(Client(&whole), "", NOT_IMPLEMENTED)]);
    check_greeted(ALL_ON, &[(Client(&flowing), &flowing, "")]);
}

/// A long line is held up to 511 octets, then flows octet by octet; the next is judged again.
#[test]
fn a_flowing_line() {
    let start = "x".repeat(511);
    let all = format!("{start}y");
    check_greeted(
        ALL_ON,
        &[
            (Client(&start), "", ""),
            (Client("y"), &all, ""),
            (Client("z\r"), "z\r", ""),
            (Client("\n"), "\n", ""),
            (Client("EPSV\r\n"), "PASV\r\n", ""),
        ],
    );
}

#[test]
fn epsv_argument_is_by_exact_value() {
    check_become(
        ALL_ON,
        &["EPSV 2", "EPSV 02", "EPSV 0000000002"],
        "PASV\r\n",
    );
    let others = [
        "EPSV 0",
        "EPSV 00",
        "EPSV 1",
        "EPSV 3",
        "EPSV 20",
        "EPSV 22",
        "EPSV 258",
        "EPSV 65538",
        "EPSV 4294967298",
        "EPSV 18446744073709551618",
        "EPSV 340282366920938463463374607431768211458",
    ];
    check_answered(ALL_ON, &others, NOT_SUPPORTED);
    let long = format!("EPSV {}2", "10".repeat(250));
    check_answered(ALL_ON, &[&long], NOT_SUPPORTED);
    check_pass(ALL_ON, &["EPSV 2 2", "EPSV +2", "EPSV 2x", "EPSV ALL x"]);
    check_pass(ALL_ON, &["EPSV -", "EPSV ALLX", "EPSV AL"]);
}

#[test]
fn epsv_off_leaves_every_epsv() {
    for flags in [ALL_OFF, EPRT_SUPPORTED, EPRT_ON] {
        check_pass(flags, &["EPSV", "EPSV 2", "EPSV 1", "EPSV ALL", "epsv"]);
    }
}

#[test]
fn eprt_becomes_port() {
    let lines = [
        "EPRT |2|2001:db8:2::31|5282|",
        "eprt |2|2001:DB8:2::31|5282|",
        "EPRT   |2|2001:db8:2::31|5282|  ",
        "EPRT !2!2001:db8:2::31!5282!",
        "EPRT ~2~2001:db8:2::31~5282~",
        "EPRT a2a2001:DB8:2::31a5282a",
        "EPRT .2.2001:db8:2::31.5282.",
        "EPRT 9292001:db8:2::31952829",
        "EPRT D2D2001:db8:2::31D5282D",
        "EPRT |2|2001:0db8:0002:0:0:0:0:0031|05282|",
        "EPRT |2|2001:db8:2::0.0.0.49|5282|",
        "EPRT |2|2001:db8:2:0:0:0:000.00.0.049|5282|",
    ];
    check_become(ALL_ON, &lines, "PORT 192,0,2,31,20,162\r\n");
    check_become(EPRT_ON, &lines, "PORT 192,0,2,31,20,162\r\n");
}

/// Any octet from 33 to 126, but one that stands in a field stands more than four times.
#[test]
fn every_delimiter() {
    for delimiter in 0..=255 {
        let d = char::from(delimiter);
        let line = doubled(&format!("EPRT {d}2{d}2001:db8:2::31{d}7{d}\r\n"));
        let good = (33..=126).contains(&delimiter) && !"2001:db8:2::317".contains(d);
        let mut gateway = greeted(ALL_ON);
        let outcome = arrive(&mut gateway, CLIENT, &line);
        let made = "PORT 192,0,2,31,0,7\r\n";
        let expected = if good { made } else { &line };
        assert_eq!(text(&outcome.to_server), expected, "octet {delimiter}");
    }
}

#[test]
fn eprt_that_passes() {
    let lines = [
        "EPRT",
        "EPRT ",
        "EPRT |",
        "EPRT ||||",
        "EPRT |2|2001:db8:2::31|5282",
        "EPRT |2|2001:db8:2::31|5282||",
        "EPRT |2|2001:db8:2::31|5282|x",
        "EPRT |2|2001:db8:2::31|5282| |",
        "EPRT ||2|2001:db8:2::31|5282|",
        "EPRT 2|2001:db8:2::31|5282|",
        "EPRT |02|2001:db8:2::31|5282|",
        "EPRT |1|2001:db8:2::31|5282|",
        "EPRT |3|2001:db8:2::31|5282|",
        "EPRT ||2001:db8:2::31|5282|",
        "EPRT | 2|2001:db8:2::31|5282|",
        "EPRT |2| 2001:db8:2::31|5282|",
        "EPRT |2|2001:db8:2::31|5282 |",
        "EPRT |2|2001:db8:2::32|5282|",
        "EPRT |2|2001:db8:2::|5282|",
        "EPRT |2|192.0.2.31|5282|",
        "EPRT |2|::192.0.2.31|5282|",
        "EPRT |2|2001:db8:2::31%0|5282|",
        "EPRT |2|2001:db8:2::31/64|5282|",
        "EPRT |2|[2001:db8:2::31]|5282|",
        "EPRT |2||5282|",
        "EPRT |2|2001:db8:2::31||",
        "EPRT |2|2001:db8:2::31|0|",
        "EPRT |2|2001:db8:2::31|00000|",
        "EPRT |2|2001:db8:2::31|65536|",
        "EPRT |2|2001:db8:2::31|99999|",
        "EPRT |2|2001:db8:2::31|000021|",
        "EPRT |2|2001:db8:2::31|+21|",
        "EPRT |2|2001:db8:2::31|2x|",
        "EPRT :2:2001:db8:2::31:5282:",
        "EPRT 22220",
        "EPRT \u{7f}2\u{7f}2001:db8:2::31\u{7f}5282\u{7f}",
        "EPRT \u{1}2\u{1}2001:db8:2::31\u{1}5282\u{1}",
    ];
    check_pass(ALL_ON, &lines);
}

#[test]
fn eprt_off_leaves_every_eprt() {
    for flags in [ALL_OFF, EPSV_ON, EPRT_SUPPORTED, EPSV_ON | EPRT_SUPPORTED] {
        check_pass(flags, &["EPRT |2|2001:db8:2::31|5282|"]);
    }
}

/// A translated EPRT is plain, and so is one that passes: a 227 for it stays.
#[test]
fn eprt_is_plain() {
    for line in ["EPRT |2|2001:db8:2::31|1|\r\n", "EPRT |2|::1|1|\r\n"] {
        let mut gateway = greeted(ALL_ON);
        arrive(&mut gateway, CLIENT, line);
        check(
            &mut gateway,
            &[
                (Client("EPSV\r\n"), "PASV\r\n", ""),
                (Server(PASSIVE), "", PASSIVE),
                (Server(PASSIVE), "", EXTENDED_PASSIVE),
            ],
        );
    }
}

#[test]
fn algs_tells_and_sets_the_state() {
    let states = [
        (ALL_OFF, "NONE", "EPSV"),
        (EPSV_ON, "EPSV", "EPSV"),
        (EPRT_SUPPORTED, "NONE", "EPSVEPRT"),
        (EPSV_ON | EPRT_SUPPORTED, "EPSV", "EPSVEPRT"),
        (EPRT_ON, "EPRT", "EPSVEPRT"),
        (ALL_ON, "EPSVEPRT", "EPSVEPRT"),
    ];
    for (flags, status, enabled) in states {
        let status = format!("216 {status}\r\n");
        let enabled = format!("216 {enabled}\r\n");
        check_greeted(
            flags,
            &[
                (Client("ALGS STATUS64\r\n"), "", &status),
                (Client("ALGS ENABLE64\r\n"), "", &enabled),
                (Client("ALGS\r\n"), "", NOT_IMPLEMENTED),
                (Client("ALGS STATUS64\r\n"), "", &enabled),
                (Client("ALGS DISABLE64\r\n"), "", "216 NONE\r\n"),
                (Client("ALGS STATUS64\r\n"), "", "216 NONE\r\n"),
                (Client("ALGS  enable64 \r\n"), "", &enabled),
            ],
        );
    }
}

#[test]
fn algs_with_another_argument() {
    let lines = [
        "ALGS",
        "ALGS ",
        "ALGS STATUS64 x",
        "ALGS STATUS64 STATUS64",
        "ALGS STATUS",
        "ALGS STATUS640",
        "ALGS x STATUS64",
        "ALGS \tSTATUS64",
    ];
    check_answered(ALL_ON, &lines, NOT_IMPLEMENTED);
    check_answered(ALL_OFF, &lines, NOT_IMPLEMENTED);
    check_pass(ALL_ON, &["ALGS64", "ALGSTATUS64", " ALGS STATUS64"]);
}

#[test]
fn algs_switches_what_follows() {
    let eprt = "EPRT |2|2001:db8:2::31|5282|\r\n";
    check_greeted(
        EPRT_SUPPORTED,
        &[
            (Client("EPSV\r\n"), "EPSV\r\n", ""),
            (Client(eprt), eprt, ""),
            (Client("ALGS ENABLE64\r\n"), "", ""),
            (Client("EPSV\r\n"), "PASV\r\n", ""),
            (Client(eprt), "PORT 192,0,2,31,20,162\r\n", ""),
            (Client("ALGS DISABLE64\r\n"), "", ""),
            (Client("EPSV 1\r\n"), "EPSV 1\r\n", ""),
            (Client(eprt), eprt, ""),
        ],
    );
}

/// "216 ... for the state then": when the line was finished, not when the answer gets out.
#[test]
fn a_216_tells_the_state_of_its_own_line() {
    let answers = "220 hi\r\n216 NONE\r\n216 EPSVEPRT\r\n216 NONE\r\n";
    check_fresh(
        ALL_ON,
        &[
            (Client("ALGS DISABLE64\r\n"), "", ""),
            (Client("ALGS ENABLE64\r\n"), "", ""),
            (Client("ALGS DISABLE64\r\n"), "", ""),
            (Server("220 hi\r\n"), "", answers),
        ],
    );
}

#[test]
fn auth_is_a_whole_word() {
    for line in ["AUTH\r\n", "auth tls\n", "AUTH  \r\n", "Auth GSSAPI x\r\n"] {
        check_greeted(
            ALL_ON,
            &[
                (Client(line), line, ""),
                (Client("EPSV"), "EPSV", ""),
                (Client("\r\n"), "\r\n", ""),
            ],
        );
    }
    for line in ["AUTHX\r\n", "AUTH\r\r\n", " AUTH TLS\r\n", "AUTH\tTLS\r\n"] {
        check_greeted(
            ALL_ON,
            &[
                (Client(line), line, ""),
                (Client("EPSV\r\n"), "PASV\r\n", ""),
            ],
        );
    }
}

/// In a line that is too long AUTH is recognised at its 512th octet, and owed once.
#[test]
fn auth_in_a_flowing_line() {
    let start = format!("aUtH {}", "x".repeat(506));
    let all = format!("{start}x");
    check_greeted(
        ALL_ON,
        &[
            (Client(&start), "", ""),
            (Server("22"), "", ""),
            (Client("x"), &all, "22"),
            (Client("\nEPSV\r\nEPSV 1\r\n"), "\nEPSV\r\nEPSV 1\r\n", ""),
            (Server("0"), "", "0"),
        ],
    );
    for start in ["AUTH\t", "AUTHX", " AUTH", "AUTH\r"] {
        let line = format!("{start}{}\r\n", "x".repeat(600));
        check_greeted(
            ALL_ON,
            &[
                (Client(&line), &line, ""),
                (Client("EPSV\r\n"), "PASV\r\n", ""),
            ],
        );
    }
}

/// One kind only, at its 512th octet; its LF passes at once and owes nothing.
#[test]
fn a_flowing_auth_line_owes_one() {
    let mut gateway = fresh(ALL_ON);
    let lines = "NOOP\r\n".repeat(14);
    check(&mut gateway, &[(Client(&lines), &lines, "")]);
    let auth = format!("AUTH {}\r\n", "x".repeat(600));
    check(
        &mut gateway,
        &[(Client(&auth), &auth, ""), (Client("\n\n"), "\n\n", "")],
    );
    for _ in 0..15 {
        check(&mut gateway, &[(Server("200 ok\r\n"), "", "200 ok\r\n")]);
    }
    check(&mut gateway, &[(Server("x"), "", "x")]);
}

/// LANG passes unwatched.
#[test]
fn what_is_not_built_passes() {
    check_pass(ALL_ON, &["LANG en", "PASV", "NOOP"]);
    check_pass(ALL_ON, &["PORT 192,0,2,31,20,162", "FEAT", "LPRT 6"]);
}
