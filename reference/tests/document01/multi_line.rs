//! Request 1: "Multi-line replies end by their own code."

use crate::talk::{Step::*, *};

/// A line too long to be judged whole.
fn flowing(start: &str) -> String {
    format!("{start}{}\r\n", "x".repeat(600))
}

/// Lines, and the same starts in lines that flow.
fn with_flowing(starts: &[&str]) -> Vec<String> {
    let whole = starts.iter().map(|start| format!("{start}\r\n"));
    let flowing = starts.iter().map(|start| flowing(start));
    whole.chain(flowing).collect()
}

/// A session inside a reply opened with `214-`, which owes that reply and a 522 behind it.
fn inside_214() -> Gateway {
    let mut gateway = greeted(ALL_ON);
    check(
        &mut gateway,
        &[
            (Client("HELP\r\n"), "HELP\r\n", ""),
            (Server("214-Help\r\n"), "", "214-Help\r\n"),
            (Client("EPSV 1\r\n"), "", ""),
        ],
    );
    gateway
}

/// The line passes, and the reply stays open: it still ends at `214 `, and only then is the reply
/// removed that was owed first, and not a second one.
#[track_caller]
fn check_belongs(line: &str) {
    let then_522 = format!("214 end\r\n{NOT_SUPPORTED}");
    check(
        &mut inside_214(),
        &[
            (Server(line), "", line),
            (Client("EPSV\r\n"), "PASV\r\n", ""),
            (Server("214 end\r\n"), "", &then_522),
            (Server(PASSIVE), "", EXTENDED_PASSIVE),
        ],
    );
}

/// "A server's help text holds a line \"220 bar is the rated pressure\" inside a reply opened with
/// `214-`."
#[test]
fn a_line_with_another_code_inside_a_reply() {
    check_belongs("220 bar is the rated pressure\r\n");
    let help = "214-Pumps\r\n220 bar is the rated pressure\r\n";
    let then_own = format!("214 done\r\n{NOT_SUPPORTED}");
    check_greeted(
        ALL_ON,
        &[
            (Client("HELP\r\nEPSV 1\r\nEPSV\r\n"), "HELP\r\nPASV\r\n", ""),
            (Server(help), "", help),
            (Server("214 done\r\n"), "", &then_own),
            (Server(PASSIVE), "", EXTENDED_PASSIVE),
        ],
    );
}

/// "Lines between, whatever their digits, belong to it": they remove nothing and open nothing.
#[test]
fn lines_that_belong_to_a_reply() {
    let starts = [
        "",
        "hello",
        "220 x",
        "220-x",
        "150 x",
        "150-x",
        "213 x",
        "215 x",
        "114 x",
        "314 x",
        "224 x",
        "227 (1,2,3,4,5,6)",
        "227-(1,2,3,4,5,6)",
        "620 x",
        "620-x",
        "099-y",
        "214-",
        "214-again",
        "214x",
        "214.",
        "214\t",
        "214\0 x",
        "214\u{a0}x",
        "214\u{ff}\u{ff}",
        "2140 x",
        " 214 x",
        "-214 x",
        "21 4 x",
        "\u{ff}\u{ff}214 x",
    ];
    for line in with_flowing(&starts) {
        check_belongs(&line);
    }
    // These are no bare codes where they flow.
    for line in ["220", "150", "22", "21", "2", "600"] {
        check_belongs(&format!("{line}\r\n"));
        check_belongs(&format!("{line}\n"));
    }
}

/// "Ends only at the same code and a space": a bare one belongs to the reply.
#[test]
fn a_bare_code_inside_a_reply_belongs() {
    for line in ["214\r\n", "214\n", "214\r\r\n", "214\t\r\n"] {
        check_belongs(line);
    }
}

#[test]
fn only_the_same_code_and_a_space_end_a_reply() {
    let mut lines = with_flowing(&["214 ", "214 x", "214  ", "214 -", "214 214-x", "214 \r"]);
    lines.push("214 \n".to_string());
    for line in lines {
        let then_522 = format!("{line}{NOT_SUPPORTED}");
        check(
            &mut inside_214(),
            &[
                (Server(&line), "", &then_522),
                (Client("EPSV\r\n"), "PASV\r\n", ""),
                (Server(PASSIVE), "", EXTENDED_PASSIVE),
            ],
        );
    }
}

/// Every code opens a reply that all others leave open, with a space, with a hyphen and bare.
#[test]
fn every_reply_ends_by_its_own_code_alone() {
    for opening in 100..600 {
        let mut gateway = greeted(ALL_ON);
        let opener = format!("{opening}-x\r\n");
        let ender = format!("{opening} x\r\n");
        let others = (0..1000).filter(|&code| code != opening);
        let mut between: String = others
            .map(|code| format!("{code:03} \n{code:03}-\n{code:03}\n"))
            .collect();
        between += &format!("{opening}\n{opening}-\n");
        let (server_room, client_room) = (0, between.len());
        check(
            &mut gateway,
            &[
                (Server(&opener), "", &opener),
                (Client("EPSV 1\r\n"), "", ""),
            ],
        );
        let outcome = gateway.arrive(SERVER, &octets(&between), server_room, client_room);
        assert_eq!((outcome.answer, text(&outcome.to_client)), (0, between));
        let then_522 = format!("{ender}{NOT_SUPPORTED}");
        check(&mut gateway, &[(Server(&ender), "", &then_522)]);
    }
}

/// A reply opened inside another is none: its end ends nothing, and its opening asks for no end.
#[test]
fn replies_do_not_nest() {
    let lines = "220-a\r\n220 b\r\n214-c\r\n220-d\r\n";
    let then_522 = format!("214 e\r\n{NOT_SUPPORTED}");
    check(
        &mut inside_214(),
        &[
            (Server(lines), "", lines),
            (Server("214 e\r\n"), "", &then_522),
            (Client("EPSV 1\r\n"), "", NOT_SUPPORTED),
        ],
    );
}

/// The next reply is opened anew, and by its own code.
#[test]
fn one_reply_after_another() {
    let then_522 = format!("220 d\r\n{NOT_SUPPORTED}");
    check_greeted(
        ALL_ON,
        &[
            (Client("HELP\r\nSTAT\r\nEPSV 1\r\n"), "HELP\r\nSTAT\r\n", ""),
            (
                Server("214-a\r\n214 b\r\n220-c\r\n214 c\r\n"),
                "",
                "214-a\r\n214 b\r\n220-c\r\n214 c\r\n",
            ),
            (Server("220 d\r\n"), "", &then_522),
        ],
    );
}

/// A greeting of several lines is one reply.
#[test]
fn a_greeting_of_several_lines() {
    let greeting = "220-hi\r\n230 users\r\n220\r\n";
    let then_522 = format!("220 ready\r\n{NOT_SUPPORTED}");
    check_fresh(
        ALL_ON,
        &[
            (Client("EPSV 1\r\nEPSV\r\n"), "PASV\r\n", ""),
            (Server(greeting), "", greeting),
            (Server("220 ready\r\n"), "", &then_522),
            (Server(PASSIVE), "", EXTENDED_PASSIVE),
        ],
    );
}

/// Own answers need not wait for the end of a line that stands alone, unless it flows.
#[test]
fn own_answers_follow_a_line_that_stands_alone() {
    let then_522 = format!("\n{NOT_SUPPORTED}");
    for start in ["hello", "620-", "620 ", "220x", " 214-"] {
        let line = format!("{start}\r\n");
        check_greeted(
            ALL_ON,
            &[
                (Server(&line), "", &line),
                (Client("EPSV 1\r\n"), "", NOT_SUPPORTED),
                (Server(start), "", ""),
                (Client("EPSV 1\r\n"), "", NOT_SUPPORTED),
                (Server("\n"), "", &format!("{start}\n")),
            ],
        );
        let long = format!("{start}{}", "x".repeat(600));
        check_greeted(
            ALL_ON,
            &[
                (Server(&long), "", &long),
                (Client("EPSV 1\r\n"), "", ""),
                (Server("\n"), "", &then_522),
            ],
        );
    }
}

/// It "removes nothing": own answers behind another reply still wait for that one.
#[test]
fn a_line_that_stands_alone_is_no_greeting() {
    let then_522 = format!("220 hi\r\n{NOT_SUPPORTED}");
    for line in with_flowing(&["hello", "620 x", "220x"]) {
        check_fresh(
            ALL_ON,
            &[
                (Server(&line), "", &line),
                (Client("EPSV 1\r\n"), "", ""),
                (Server(&line), "", &line),
                (Server("220 hi\r\n"), "", &then_522),
            ],
        );
    }
}

/// Inside a reply a 227 is never read, whoever waits for it.
#[test]
fn a_227_inside_a_reply_passes() {
    for code in ["214", "226", "327", "220"] {
        let (opener, ender) = (format!("{code}-x\r\n"), format!("{code} x\r\n"));
        check_greeted(
            ALL_ON,
            &[
                (Client("EPSV\r\nEPSV\r\n"), "PASV\r\nPASV\r\n", ""),
                (Server(&opener), "", &opener),
                (Server(PASSIVE), "", PASSIVE),
                (Server(PASSIVE), "", PASSIVE),
                (Server(&ender), "", &ender),
                (Server(PASSIVE), "", EXTENDED_PASSIVE),
                (Server(PASSIVE), "", PASSIVE),
            ],
        );
    }
}

/// "Rewriting the last line of a reply opened with `227-`: its opening never closes." That line
/// ends the reply, removes the translated EPSV and passes.
#[test]
fn a_reply_opened_with_227() {
    let then_522 = format!("{PASSIVE}{NOT_SUPPORTED}");
    for opener in with_flowing(&["227-x", "227-(192,0,2,31,237,19)"]) {
        check_greeted(
            ALL_ON,
            &[
                (Client("EPSV\r\nEPSV 1\r\nEPSV\r\n"), "PASV\r\nPASV\r\n", ""),
                (Server(&opener), "", &opener),
                (Server("227\r\n"), "", "227\r\n"),
                (Server(PASSIVE), "", &then_522),
                (Server(PASSIVE), "", EXTENDED_PASSIVE),
                (Server(PASSIVE), "", PASSIVE),
            ],
        );
    }
}

/// A reply opened with `150-` and ended with `150 ` removes nothing, keeps own answers back
/// meanwhile, and spoils no 227.
#[test]
fn a_preliminary_reply_of_several_lines() {
    let inside = format!("220 x\r\n150\r\n{PASSIVE}");
    for (opener, ender) in [
        ("150-a\r\n".to_string(), "150 b\r\n".to_string()),
        (flowing("150-"), flowing("150 ")),
    ] {
        check_greeted(
            ALL_ON,
            &[
                (Client("EPSV\r\n"), "PASV\r\n", ""),
                (Server(&opener), "", &opener),
                (Server(&inside), "", &inside),
                (Server(&ender), "", &ender),
                (Server(PASSIVE), "", EXTENDED_PASSIVE),
            ],
        );
        let then_522 = format!("{ender}{NOT_SUPPORTED}");
        check_greeted(
            ALL_ON,
            &[
                (Server(&opener), "", &opener),
                (Client("EPSV 1\r\n"), "", ""),
                (Server(&inside), "", &inside),
                (Server(&ender), "", &then_522),
            ],
        );
    }
}

/// "A flowing line is judged by its first four octets", and "counts when its LF passes".
#[test]
fn a_flowing_line_opens_a_reply() {
    let start = format!("220-{}", "x".repeat(508));
    let then_522 = format!("220 y\r\n{NOT_SUPPORTED}");
    check_greeted(
        ALL_ON,
        &[
            (Server(&start), "", &start),
            (Client("EPSV 1\r\n"), "", ""),
            (Server("220 z\n"), "", "220 z\n"),
            (Server("hello\r\n"), "", "hello\r\n"),
            (Server("220 y\r\n"), "", &then_522),
        ],
    );
}

#[test]
fn a_flowing_line_ends_a_reply() {
    let start = format!("214 {}", "x".repeat(508));
    let then_522 = format!("\n{NOT_SUPPORTED}");
    check(
        &mut inside_214(),
        &[
            (Server(&start), "", &start),
            (Server("214 x\r"), "", "214 x\r"),
            (Server("\n"), "", &then_522),
        ],
    );
}

/// Three digits and more of them are no bare code, however the line ends.
#[test]
fn a_flowing_line_is_no_bare_code() {
    let line = format!("220{}\r\n", "0".repeat(600));
    let then_522 = format!("220\r\n{NOT_SUPPORTED}");
    check_greeted(
        ALL_ON,
        &[
            (Client("NOOP\r\nEPSV 1\r\n"), "NOOP\r\n", ""),
            (Server(&line), "", &line),
            (Server("220\r\n"), "", &then_522),
        ],
    );
}

/// "When AUTH reaches the head", it waits for no reply to end.
#[test]
fn auth_inside_a_reply() {
    check_greeted(
        ALL_ON,
        &[
            (Server("214-x\r\n220 y\r\n21"), "", "214-x\r\n220 y\r\n"),
            (Client("AUTH TLS\r\n"), "AUTH TLS\r\n", "21"),
            (Server("4"), "", "4"),
        ],
    );
}

/// Where a reply is owed before it, only the end of that reply brings AUTH to the head.
#[test]
fn auth_behind_a_reply_of_several_lines() {
    check_greeted(
        ALL_ON,
        &[
            (Client("HELP\r\nAUTH TLS\r\n"), "HELP\r\nAUTH TLS\r\n", ""),
            (Server("214-x\r\n220 y\r\n"), "", "214-x\r\n220 y\r\n"),
            (Server("214"), "", ""),
            (Server("\r\n21"), "", "214\r\n"),
            (Server("4 z\r\n"), "", "214 z\r\n"),
            (Server("2"), "", "2"),
        ],
    );
}

/// An end lets held octets go and ends no reply, so own answers are not written after it.
#[test]
fn an_end_inside_a_reply() {
    check(
        &mut inside_214(),
        &[
            (Server("214 en"), "", ""),
            (ServerEnd, "", "214 en"),
            (Client("EPSV 1\r\n"), "", ""),
        ],
    );
}

/// A LF needs room for the own answers behind it just where they follow.
#[test]
fn room_for_what_follows_a_line() {
    let length = NOT_SUPPORTED.len();
    for (line, follows) in [
        ("220 bar\r\n", false),
        ("214\r\n", false),
        ("214-x\r\n", false),
        ("214 x\r\n", true),
    ] {
        let room = line.len() + if follows { length } else { 0 };
        let mut gateway = inside_214();
        let outcome = gateway.arrive(SERVER, &octets(line), 0, room - 1);
        assert_eq!((outcome.answer, outcome.taken), (2, line.len() - 1));
        let outcome = gateway.arrive(SERVER, b"\n", 0, room);
        assert_eq!((outcome.answer, outcome.to_client.len()), (0, room));
    }
    for (start, follows) in [
        ("hello", true),
        ("620-", true),
        ("220 ", true),
        ("220-", false),
    ] {
        let room = 1 + if follows { length } else { 0 };
        let mut gateway = greeted(ALL_ON);
        let line = format!("{start}{}", "x".repeat(600));
        check(&mut gateway, &[(Server(&line), "", &line)]);
        check(&mut gateway, &[(Client("EPSV 1\r\n"), "", "")]);
        let outcome = gateway.arrive(SERVER, b"\n", 0, room - 1);
        assert_eq!((outcome.answer, outcome.taken), (2, 0), "{start}");
        let outcome = gateway.arrive(SERVER, b"\n", 0, room);
        assert_eq!((outcome.answer, outcome.to_client.len()), (0, room));
    }
}
