//! "Server lines": which end or open a reply, what they remove, and which 227 becomes a 229.

use crate::talk::{Step::*, *};

/// What a line of the server becomes where a translated EPSV is owed.
fn answer_to_epsv(line: &str) -> String {
    let mut gateway = greeted(ALL_ON);
    check(&mut gateway, &[(Client("EPSV\r\n"), "PASV\r\n", "")]);
    text(&arrive(&mut gateway, SERVER, line).to_client)
}

#[track_caller]
fn check_port(lines: &[&str], port: u16) {
    let expected = format!("229 Entering Extended Passive Mode (|||{port}|)\r\n");
    for line in lines {
        assert_eq!(answer_to_epsv(&format!("{line}\r\n")), expected, "{line}");
        assert_eq!(answer_to_epsv(&format!("{line}\n")), expected, "{line}");
    }
}

#[track_caller]
fn check_unread(lines: &[&str]) {
    for line in lines {
        let line = format!("{line}\r\n");
        assert_eq!(answer_to_epsv(&line), line);
    }
}

/// Whether a line keeps own answers back: only one that leaves a reply unfinished does.
fn leaves_unfinished(line: &str) -> bool {
    let mut gateway = greeted(ALL_ON);
    arrive(&mut gateway, SERVER, line);
    let outcome = arrive(&mut gateway, CLIENT, "EPSV 1\r\n");
    text(&outcome.to_client) != NOT_SUPPORTED
}

/// Whether a line removes the first owed kind, so that the own answer behind it follows.
fn removes(line: &str) -> bool {
    let mut gateway = greeted(ALL_ON);
    let lines = "NOOP\r\nEPSV 1\r\n";
    check(&mut gateway, &[(Client(lines), "NOOP\r\n", "")]);
    let outcome = arrive(&mut gateway, SERVER, line);
    text(&outcome.to_client) != line
}

#[test]
fn readable_227() {
    check_port(
        &[
            "227 Entering Passive Mode (192,0,2,31,237,19)",
            "227 192,0,2,31,237,19",
            "227  =192,0,2,31,237,19",
            "227 (10,9,8,7,237,019) or (1,2,3,4,5,6)",
            "227 x 0,00,000,255,237,19,20",
            "227 x 192,0,2,31,237,19x9999",
            "227 \t[192,0,2,31,237,19",
            "227 192,0,2,31,237,19\r",
        ],
        60691,
    );
    check_port(&["227 1,2,3,4,0,1"], 1);
    check_port(&["227 1,2,3,4,1,0"], 256);
    check_port(&["227 255,255,255,255,255,255"], 65535);
}

#[test]
fn unreadable_227() {
    check_unread(&[
        "227",
        "227 ",
        "227 no numbers",
        "227 Mode 4 (1,2,3,4,5,6)",
        "227 x (1,2,3,4,5)",
        "227 x (1,2,3,4,5,)",
        "227 x (1,2,3,4,5,,6)",
        "227 x (1,,2,3,4,5,6)",
        "227 x (1, 2,3,4,5,6)",
        "227 x (1,2,3,4,5 ,6)",
        "227 x (1.2.3.4.5.6)",
        "227 x (256,2,3,4,5,6)",
        "227 x (1,2,3,4,256,6)",
        "227 x (1,2,3,4,5,256)",
        "227 x (1,2,3,4,5,0006)",
        "227 x (0001,2,3,4,5,6)",
        "227 x (1,2,3,4,5,1000)",
        "227 x (1,2,3,4,0,0)",
        "227 x (1,2,3,4,00,000)",
        "227 x (-1,2,3,4,5,x)",
    ]);
}

/// Only a 227 that ends its reply in one line is read.
#[test]
fn other_answers_to_epsv() {
    check_unread(&[
        "200 x (1,2,3,4,5,6)",
        "229 Entering Extended Passive Mode (|||5|)",
        "500 1,2,3,4,5,6",
        "127 1,2,3,4,5,6",
        "227-1,2,3,4,5,6",
        "2271,2,3,4,5,6",
        "227,1,2,3,4,5,6",
        "227\t1,2,3,4,5,6",
        " 227 1,2,3,4,5,6",
        "227\r",
    ]);
}

#[test]
fn a_227_of_512_octets_is_read_and_one_of_513_flows() {
    let whole = format!("227 1,2,3,4,5,6{}\r\n", "x".repeat(495));
    let flowing = format!("227 1,2,3,4,5,6{}\r\n", "x".repeat(496));
    assert_eq!((whole.len(), flowing.len()), (512, 513));
    let made = "229 Entering Extended Passive Mode (|||1286|)\r\n";
    assert_eq!(answer_to_epsv(&whole), made);
    assert_eq!(answer_to_epsv(&flowing), flowing);
}

/// The kind is removed whether or not the 227 can be read, and by a flowing one too.
#[test]
fn an_unread_227_removes_the_kind() {
    let flowing = format!("227 1,2,3,4,5,6{}\r\n", "x".repeat(600));
    for line in ["227 x\r\n", "227\r\n", "500 no\r\n", &flowing] {
        check_greeted(
            ALL_ON,
            &[
                (Client("EPSV\r\n"), "PASV\r\n", ""),
                (Server(line), "", line),
                (Server(PASSIVE), "", PASSIVE),
            ],
        );
    }
}

/// A translated EPSV on the queue stays one after DISABLE64.
#[test]
fn a_227_after_disable64() {
    let both = format!("{EXTENDED_PASSIVE}216 NONE\r\n");
    check_greeted(
        ALL_ON,
        &[
            (Client("EPSV\r\n"), "PASV\r\n", ""),
            (Client("ALGS DISABLE64\r\n"), "", ""),
            (Server(PASSIVE), "", &both),
        ],
    );
}

#[test]
fn lines_that_end_a_reply() {
    let long = format!("200 {}\r\n", "x".repeat(600));
    let lines = [
        "220 x\r\n",
        "220\r\n",
        "220\n",
        "220 \n",
        "220 -\r\n",
        "220 \r\r\n",
        "599 \r\n",
        &long,
    ];
    for line in lines {
        assert!(!leaves_unfinished(line), "{line}");
        assert!(removes(line), "{line}");
    }
    for line in ["100 x\r\n", "150\r\n", "199 \n"] {
        assert!(!leaves_unfinished(line), "{line}");
        assert!(!removes(line), "{line}");
    }
}

/// "A reply opened with a code and a hyphen."
#[test]
fn lines_that_open_a_reply() {
    let long = format!("200-{}\r\n", "x".repeat(600));
    let lines = [
        "220-x\r\n",
        "220-\r\n",
        "220-\n",
        "220--\r\n",
        "220- x\r\n",
        "220-220 x\r\n",
        "150-x\r\n",
        "100-\r\r\n",
        "599-x\r\n",
        &long,
    ];
    for line in lines {
        assert!(leaves_unfinished(line), "{line}");
        assert!(!removes(line), "{line}");
    }
}

/// "A line of none of these forms passes, ends at its LF and removes nothing."
#[test]
fn lines_that_stand_alone() {
    let long = |start| format!("{start}{}\r\n", "x".repeat(600));
    let lines = [
        "\r\n",
        "\n",
        "\r\r\n",
        "hello\r\n",
        "600 x\r\n",
        "099 y\r\n",
        "000\r\n",
        "620-x\r\n",
        "099-y\r\n",
        "220x\r\n",
        "22\r\n",
        "22 x\r\n",
        "22-x\r\n",
        "2-0-x\r\n",
        "2200\r\n",
        "2200 x\r\n",
        "2200-x\r\n",
        "2x0 x\r\n",
        "22x-x\r\n",
        " 220 x\r\n",
        " 220-x\r\n",
        "-220-x\r\n",
        "220\r\r\n",
        "220\t\r\n",
        "220\u{ad}x\r\n",
        "220\u{a0}x\r\n",
        "\u{b2}20-x\r\n",
        &long("hello"),
        &long("620 "),
        &long("620-"),
        &long("220x"),
        &long("220"),
        &long(" 220-"),
    ];
    for line in lines {
        assert!(!leaves_unfinished(line), "{line}");
        assert!(!removes(line), "{line}");
    }
}

/// A code's "digit 1 to 5, two digits" are all that make it one.
#[test]
fn every_code_opens_and_ends() {
    for number in 0..1000 {
        let line = |behind| format!("{number:03}{behind}\r\n");
        let is_code = (100..600).contains(&number);
        assert_eq!(leaves_unfinished(&line("-x")), is_code, "{number}");
        assert!(!leaves_unfinished(&line(" x")), "{number}");
        assert!(!leaves_unfinished(&line("")), "{number}");
        let is_final = (200..600).contains(&number);
        assert_eq!(removes(&line(" x")), is_final, "{number}");
        assert_eq!(removes(&line("")), is_final, "{number}");
    }
}

/// No line of them belongs to the reply of a 227 that follows.
#[test]
fn a_line_that_stands_alone_spoils_no_227() {
    let flowing = format!("hello{}\r\n", "x".repeat(600));
    for line in ["hello\r\n", "\r\n", "600 x\r\n", "620-x\r\n", &flowing] {
        check_greeted(
            ALL_ON,
            &[
                (Client("EPSV\r\n"), "PASV\r\n", ""),
                (Server(line), "", line),
                (Server(PASSIVE), "", EXTENDED_PASSIVE),
            ],
        );
    }
}

/// A 1xx line ends its reply and removes nothing, so it spoils no 227.
#[test]
fn a_preliminary_reply_removes_nothing() {
    check_greeted(
        ALL_ON,
        &[
            (Client("EPSV\r\n"), "PASV\r\n", ""),
            (Server("150 wait\r\n"), "", "150 wait\r\n"),
            (Server("150-a\r\n150 b\r\n"), "", "150-a\r\n150 b\r\n"),
            (Server(PASSIVE), "", EXTENDED_PASSIVE),
        ],
    );
}

#[test]
fn every_final_code_removes_one() {
    for code in ["200", "331 x", "425 x", "599"] {
        let line = format!("{code}\r\n");
        check_greeted(
            ALL_ON,
            &[
                (Client("EPSV\r\nEPSV\r\n"), "PASV\r\nPASV\r\n", ""),
                (Server(&line), "", &line),
                (Server(PASSIVE), "", EXTENDED_PASSIVE),
                (Server(PASSIVE), "", PASSIVE),
            ],
        );
    }
}

/// Replies that nobody waits for pass and do not count ahead.
#[test]
fn replies_with_nothing_owed() {
    check_greeted(
        ALL_ON,
        &[
            (
                Server("421 bye\r\n421 bye\r\n"),
                "",
                "421 bye\r\n421 bye\r\n",
            ),
            (Client("EPSV\r\n"), "PASV\r\n", ""),
            (Server(PASSIVE), "", EXTENDED_PASSIVE),
        ],
    );
}

/// A flowing line counts when its LF passes.
#[test]
fn a_flowing_reply() {
    let start = format!("200 {}", "x".repeat(507));
    let all = format!("{start}x");
    let then_522 = format!("\n{NOT_SUPPORTED}");
    check_greeted(
        ALL_ON,
        &[
            (Client("NOOP\r\nEPSV 1\r\n"), "NOOP\r\n", ""),
            (Server(&start), "", ""),
            (Server("x"), "", &all),
            (Server("y\r"), "", "y\r"),
            (Server("\n"), "", &then_522),
        ],
    );
}

/// Nothing is ever shortened: odd octets pass as they are.
#[test]
fn server_octets_pass_unchanged() {
    let line: String = (0..=255).filter(|&o| o != 10).map(char::from).collect();
    let line = doubled(&format!("220 {line}\r\r\n"));
    check_fresh(ALL_ON, &[(Server(&line), "", &line)]);
}
