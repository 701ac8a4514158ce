//! Request 2: "Telnet octets."

use reference::telnet::{self, State};

use crate::layer::{Does, Layer};
use crate::talk::{Step::*, *};

const IAC: &str = "\u{ff}";
const DOUBLED: &str = "\u{ff}\u{ff}";
const NOP: &str = "\u{ff}\u{f1}";
const WILL: &str = "\u{ff}\u{fb}";
const WONT: &str = "\u{ff}\u{fc}";
const DO: &str = "\u{ff}\u{fd}";
const DONT: &str = "\u{ff}\u{fe}";
const SB: &str = "\u{ff}\u{fa}";
const SE: &str = "\u{ff}\u{f0}";

/// What leads to each state, and what passes of it where its direction ends or comes to pass at
/// once: a subnegotiation does not, nor a 255 in it.
const STATES: [(&str, &str); 8] = [
    ("", ""),
    (IAC, IAC),
    (WILL, WILL),
    (WONT, WONT),
    (DO, DO),
    (DONT, DONT),
    ("\u{ff}\u{fa}\u{18}", ""),
    ("\u{ff}\u{fa}\u{18}\u{ff}", ""),
];

/// What a side says, as a step, and what it gives on that side's way and back to it.
fn says<'text>(
    direction: u8,
    said: &'text str,
    onward: &'text str,
    back: &'text str,
) -> Expected<'text> {
    if direction == CLIENT {
        (Client(said), onward, back)
    } else {
        (Server(said), back, onward)
    }
}

fn ends(direction: u8, onward: &str) -> Expected<'_> {
    if direction == CLIENT {
        (ClientEnd, onward, "")
    } else {
        (ServerEnd, "", onward)
    }
}

/// Runs what a side says after the greeting.
#[track_caller]
fn check_said(direction: u8, said: &str, onward: &str, back: &str) -> Gateway {
    let mut gateway = greeted(ALL_ON);
    check(&mut gateway, &[says(direction, said, onward, back)]);
    gateway
}

#[track_caller]
fn check_stopped(outcome: &Outcome, answer: u8, taken: usize) {
    assert_eq!((outcome.answer, outcome.taken), (answer, taken));
    assert_eq!(
        (&outcome.to_server[..], &outcome.to_client[..]),
        (&[][..], &[][..])
    );
}

/// The layer alone: every octet in every state, and which state comes after it.
#[test]
fn the_layer_alone() {
    for (start, left) in STATES {
        for octet in 0..=255 {
            let (mut layer, mut state) = (Layer::default(), State::Clear);
            for octet in octets(start) {
                layer.take(octet);
                state = state.take(octet).0;
            }
            assert_eq!(state.unfinished(), octets(left));
            let (after, does) = state.take(octet);
            let does = match does {
                telnet::Does::Data(octet) => Does::Data(octet),
                telnet::Does::Nothing => Does::Nothing,
                telnet::Does::Answers(answer) => Does::Answers(answer.to_vec()),
                telnet::Does::Passes(command) => Does::Passes(command.to_vec()),
                telnet::Does::Removes(count) => Does::Removes(count),
            };
            assert_eq!(does, layer.take(octet), "{state:?} {octet}");
            assert_eq!(after.unfinished(), layer.unfinished(), "{state:?} {octet}");
            let within = matches!(after, State::Within | State::WithinIac);
            assert_eq!(within, layer.is_within(), "{state:?} {octet}");
        }
    }
}

/// Every octet in every state, of either side, ahead of a held line and of a flowing one.
#[test]
fn every_octet_in_every_state() {
    for direction in [CLIENT, SERVER] {
        for line in ["x".to_string(), "x".repeat(600)] {
            for (start, _) in STATES {
                for octet in 0..=255 {
                    check_octet(direction, &line, start, octet);
                }
            }
        }
    }
}

#[track_caller]
fn check_octet(direction: u8, line: &str, start: &str, octet: u8) {
    let mut gateway = greeted(ALL_ON);
    let mut layer = Layer::default();
    arrive(&mut gateway, direction, line);
    arrive(&mut gateway, direction, start);
    for octet in octets(start) {
        layer.take(octet);
    }
    let before = gateway.clone();
    let outcome = gateway.arrive(direction, &[octet], PLENTY, PLENTY);
    let removed = gateway.removed(direction) - before.removed(direction);
    let flows = line.len() > 512;
    let (onward, back, count) = match layer.take(octet) {
        Does::Data(b'\n') if !flows => (octets(&format!("{line}\n")), vec![], 0),
        Does::Data(_) if !flows => (vec![], vec![], 0),
        Does::Data(255) => (vec![255, 255], vec![], 0),
        Does::Data(octet) => (vec![octet], vec![], 0),
        Does::Nothing => (vec![], vec![], 0),
        Does::Answers(answer) => (vec![], answer, 0),
        Does::Passes(command) => (command, vec![], 0),
        Does::Removes(count) => (vec![], vec![], count),
    };
    let (to_server, to_client) = if direction == CLIENT {
        (onward, back)
    } else {
        (back, onward)
    };
    let expected = Outcome {
        answer: 0,
        taken: 1,
        to_server,
        to_client,
    };
    assert_eq!((outcome, removed), (expected, count), "{start:?} {octet}");
}

/// "WILL is answered to its sender with DONT, DO with WONT, and neither is relayed; WONT and DONT
/// are dropped", whatever the option.
#[test]
fn offers_are_answered_to_their_sender() {
    for direction in [CLIENT, SERVER] {
        for option in (0..=255).map(char::from) {
            let said = format!("{WILL}{option}{DO}{option}{WONT}{option}{DONT}{option}");
            let back = format!("{DONT}{option}{WONT}{option}");
            let gateway = check_said(direction, &said, "", &back);
            assert_eq!([gateway.removed(CLIENT), gateway.removed(SERVER)], [0, 0]);
        }
    }
}

/// No option is remembered: the same offer is answered every time.
#[test]
fn the_same_offer_is_answered_again() {
    let offers = format!("{WILL}\u{1}").repeat(3);
    let answers = format!("{DONT}\u{1}").repeat(3);
    check_said(CLIENT, &offers, "", &answers);
    check_said(SERVER, &offers, "", &answers);
}

/// "One old server opens with option offers."
#[test]
fn a_server_that_opens_with_offers() {
    let opening = format!("{WILL}\u{1}{DO}\u{18}220 hi\r\n");
    let answers = format!("{DONT}\u{1}{WONT}\u{18}");
    check_fresh(
        ALL_ON,
        &[
            (Server(&opening), &answers, "220 hi\r\n"),
            (Client("EPSV\r\n"), "PASV\r\n", ""),
            (Server(PASSIVE), "", EXTENDED_PASSIVE),
        ],
    );
}

/// The option octet is one whatever it is: a LF finishes no line, and a 255 begins nothing.
#[test]
fn option_octets_that_look_like_others() {
    let said = format!("EP{WILL}\nSV{DO}{IAC}\r{WONT}\n{DONT}{IAC}{WILL}\u{f0}\n");
    let back = format!("{DONT}\n{WONT}{IAC}{DONT}\u{f0}");
    check_said(CLIENT, &said, "PASV\r\n", &back);
    let said = format!("2{WILL}\n2{DO}{IAC}0{WONT}\n{DONT}{IAC} x{WILL}\u{f0}\n");
    check_said(SERVER, &said, "220 x\n", &back);
}

/// "255 and any other octet but 250 pass at once as a command, ahead of a held line": a LF and a
/// stray 240 too.
#[test]
fn commands_pass_ahead_of_a_held_line() {
    for octet in (0..=249).map(char::from) {
        let command = format!("{IAC}{octet}");
        let said = format!("EP{command}SV\r\n");
        check_said(CLIENT, &said, &format!("{command}PASV\r\n"), "");
        let said = format!("22{command}0 x\r\n");
        check_said(SERVER, &said, &format!("{command}220 x\r\n"), "");
    }
}

/// The LF of 255 10 finishes no line: nothing is owed for it, and a line goes on.
#[test]
fn the_lf_of_a_command_finishes_no_line() {
    let mut gateway = greeted(ALL_ON);
    let command = format!("{IAC}\n");
    let commands = command.repeat(40);
    check(
        &mut gateway,
        &[
            (Client(&commands), &commands, ""),
            (Client("EPSV 1\n"), "", NOT_SUPPORTED),
            (Server("214-x"), "", ""),
            (Server(&command), "", &command),
            (Client("EPSV 1\n"), "", NOT_SUPPORTED),
        ],
    );
}

/// Nothing of Telnet waits: not for an unfinished reply with own answers behind it.
#[test]
fn telnet_does_not_wait_for_a_reply() {
    let offer = format!("{WILL}\u{1}{NOP}");
    let answer = format!("{DONT}\u{1}");
    let then_522 = format!("214 x\r\n{NOT_SUPPORTED}");
    check_greeted(
        ALL_ON,
        &[
            (Server("214-x\r\n2"), "", "214-x\r\n"),
            (Client("EPSV 1\r\n"), "", ""),
            (Client(&offer), NOP, &answer),
            (Server(&offer), &answer, NOP),
            (Client("NO"), "", ""),
            (Server(&offer), &answer, NOP),
            (Client(&offer), NOP, &answer),
            (Server("14 x\r\n"), "", &then_522),
        ],
    );
}

/// Nor for a line that flows: it goes on behind the command.
#[test]
fn telnet_inside_a_flowing_line() {
    let line = "x".repeat(600);
    let offer = format!("{WILL}\u{1}{NOP}{SB}a\n{SE}y");
    let onward = format!("{NOP}y");
    let answer = format!("{DONT}\u{1}");
    for direction in [CLIENT, SERVER] {
        let mut gateway = check_said(direction, &line, &line, "");
        check(
            &mut gateway,
            &[
                says(direction, &offer, &onward, &answer),
                says(direction, "EPSV\n", "EPSV\n", ""),
            ],
        );
        assert_eq!(gateway.removed(direction), 6);
    }
}

/// An offer is answered after the other side's end: "until a direction passes at once" speaks of
/// the sender's.
#[test]
fn offers_after_the_other_sides_end() {
    let said = format!("{WILL}\u{1}{NOP}");
    let answer = format!("{DONT}\u{1}");
    for direction in [CLIENT, SERVER] {
        let mut gateway = greeted(ALL_ON);
        check(
            &mut gateway,
            &[
                ends(1 - direction, ""),
                says(direction, &said, NOP, &answer),
            ],
        );
    }
}

/// AUTH is recognised and not yet at the head: the client's octets pass as they are, the server's
/// offers are still answered to it, between them.
#[test]
fn offers_of_the_server_before_auth_is_at_the_head() {
    let offer = format!("{WILL}\u{1}");
    let answer = format!("{DONT}\u{1}");
    check_greeted(
        ALL_ON,
        &[
            (Client("NOOP\r\nAUTH\r\n"), "NOOP\r\nAUTH\r\n", ""),
            (Client(&offer), &offer, ""),
            (Server(&offer), &answer, ""),
            (Server("200 ok\r\n"), "", "200 ok\r\n"),
            (Server(&offer), "", &offer),
        ],
    );
}

/// Number 1 is asked of Telnet octets too, in every state. Those of the server are taken.
#[test]
fn number_1_stops_telnet_octets() {
    let mut gateway = fresh(ALL_ON);
    let lines = "NOOP\r\n".repeat(15);
    let outcome = arrive(&mut gateway, CLIENT, &format!("{lines}{WILL}\u{1}"));
    assert_eq!((outcome.answer, outcome.taken), (1, lines.len()));
    let before = gateway.clone();
    for (said, _) in &STATES[1..] {
        check_stopped(&arrive(&mut gateway, CLIENT, said), 1, 0);
    }
    assert_eq!(gateway, before);
    let offer = format!("{DO}\u{1}");
    let answer = format!("{WONT}\u{1}");
    check(
        &mut gateway,
        &[
            (Server(&offer), &answer, ""),
            (Server("220 hi\r\n"), "", "220 hi\r\n"),
            (Client(&offer), "", &answer),
        ],
    );
}

/// "A subnegotiation is removed up to its end" and "all its octets removed are counted": each row
/// says what a side says, how many octets of it are removed, and what is left of it.
#[test]
fn subnegotiations_are_removed_and_counted() {
    let rows: [(&str, u32, &str); 15] = [
        ("\u{fa}\u{f0}x\n", 0, "\u{fa}\u{f0}x\n"),
        ("\u{ff}\u{fa}\u{ff}\u{f0}x\n", 4, "x\n"),
        ("x\u{ff}\u{fa}\u{18}\u{1}\u{ff}\u{f0}y\n", 6, "xy\n"),
        ("\u{ff}\u{fa}\n\n\u{ff}\u{f0}x\n", 6, "x\n"),
        // A 240 alone ends nothing, nor one behind a doubled 255.
        ("\u{ff}\u{fa}\u{f0}x\n\u{ff}\u{f0}y\n", 7, "y\n"),
        ("\u{ff}\u{fa}\u{ff}\u{ff}\u{f0}x\n\u{ff}\u{f0}y\n", 9, "y\n"),
        ("\u{ff}\u{fa}\u{ff}\u{ff}\u{ff}\u{f0}y\n", 6, "y\n"),
        // 255 and any other octet inside go with the rest, and it goes on.
        ("\u{ff}\u{fa}\u{ff}\u{f1}x\n\u{ff}\u{f0}y\n", 8, "y\n"),
        ("\u{ff}\u{fa}\u{ff}\u{fa}x\u{ff}\u{f0}y\n", 7, "y\n"),
        ("\u{ff}\u{fa}\u{ff}\u{fb}\u{1}\u{ff}\u{f0}y\n", 7, "y\n"),
        ("\u{ff}\u{fa}\u{ff}\n\u{ff}\u{f0}y\n", 6, "y\n"),
        // Two are counted together.
        (
            "\u{ff}\u{fa}\u{ff}\u{f0}\u{ff}\u{fa}a\u{ff}\u{f0}y\n",
            9,
            "y\n",
        ),
        // An unfinished one has counted what was taken.
        ("\u{ff}", 0, ""),
        ("\u{ff}\u{fa}", 2, ""),
        ("\u{ff}\u{fa}abc\n\u{ff}", 7, ""),
    ];
    for direction in [CLIENT, SERVER] {
        for (said, removed, left) in rows {
            let gateway = check_said(direction, said, left, "");
            assert_eq!(gateway.removed(direction), removed, "{said:?}");
            assert_eq!(gateway.removed(1 - direction), 0, "{said:?}");
        }
    }
}

/// Offers, WONT, DONT, commands and doubled 255 are not counted.
#[test]
fn only_subnegotiations_are_counted() {
    let said = format!("{WILL}\u{1}{DO}\u{1}{WONT}\u{1}{DONT}\u{1}{NOP}{DOUBLED}\n");
    for direction in [CLIENT, SERVER] {
        let mut gateway = greeted(ALL_ON);
        arrive(&mut gateway, direction, &said);
        assert_eq!([gateway.removed(CLIENT), gateway.removed(SERVER)], [0, 0]);
    }
    assert_eq!(greeted(ALL_ON).removed(2), 0);
    let (dead, _) = Gateway::setup(CLIENT_ADDRESS, MAPPED, 16, SERVER_ADDRESS);
    assert_eq!(dead.removed(CLIENT), 0);
}

/// The count wraps no sooner than 32 bits say, and a long one is not quadratic.
#[test]
fn a_long_subnegotiation() {
    for direction in [CLIENT, SERVER] {
        let mut gateway = greeted(ALL_ON);
        arrive(&mut gateway, direction, SB);
        let inside = vec![b'\n'; 1_000_000];
        let outcome = gateway.arrive(direction, &inside, 0, 0);
        check_stopped(&outcome, 0, inside.len());
        check(
            &mut gateway,
            &[says(direction, &format!("{SE}x\n"), "x\n", "")],
        );
        assert_eq!(gateway.removed(direction), 1_000_004);
    }
}

/// An end in each state, with octets held, with none, and in a flowing line: "Where held octets
/// pass at an end or for AUTH, any other command still unfinished passes after them, also where
/// none are held."
#[test]
fn an_end_in_every_state() {
    for direction in [CLIENT, SERVER] {
        for held in ["", "22", "2\u{ff}\u{ff}2"] {
            for (start, left) in STATES {
                let said = format!("{held}{start}");
                let mut gateway = check_said(direction, &said, "", "");
                let removed = gateway.removed(direction);
                let all = format!("{held}{left}");
                check(&mut gateway, &[ends(direction, &all)]);
                assert_eq!(gateway.removed(direction), removed);
                assert_eq!(gateway.telnet(direction), State::Clear);
                let written = octets(&all).len() as u32;
                let taken = octets(&said).len() as u32;
                assert_eq!(gateway.offset(direction), written.wrapping_sub(taken));
                let outcome = arrive(&mut gateway, direction, "x");
                check_stopped(&outcome, 6, 0);
            }
        }
        let line = "x".repeat(600);
        for (start, left) in STATES {
            let mut gateway = check_said(direction, &line, &line, "");
            check(
                &mut gateway,
                &[says(direction, start, "", ""), ends(direction, left)],
            );
        }
    }
}

/// Number 2 at an end "counts its octets with the held ones", each 255 twice, in the one buffer
/// that they go to, and leaves the record equal.
#[test]
fn number_2_at_an_end_in_every_state() {
    for direction in [CLIENT, SERVER] {
        for (start, left) in STATES {
            let mut gateway = check_said(direction, &format!("x{DOUBLED}{start}"), "", "");
            let all = format!("x{DOUBLED}{left}");
            let length = octets(&all).len();
            let rooms = |room: usize| {
                if direction == CLIENT {
                    (room, 0)
                } else {
                    (0, room)
                }
            };
            let before = gateway.clone();
            for room in 0..length {
                let (server_room, client_room) = rooms(room);
                let outcome = gateway.end(direction, server_room, client_room);
                check_stopped(&outcome, 2, 0);
                assert_eq!(gateway, before);
            }
            let (server_room, client_room) = rooms(length);
            let outcome = gateway.end(direction, server_room, client_room);
            let written = [outcome.to_server, outcome.to_client].concat();
            assert_eq!((outcome.answer, text(&written)), (0, all));
        }
    }
}

/// AUTH comes to the head with the server in each state: the held octets pass, the command after
/// them, and the octet that would have finished it passes as it is. A subnegotiation is removed
/// "until its direction passes at once".
#[test]
fn auth_in_every_state_of_the_server() {
    for held in ["", "22", "2\u{ff}\u{ff}2"] {
        for (start, left) in STATES {
            let said = format!("{held}{start}");
            let all = format!("{held}{left}");
            let raw = format!("\u{1}{SE}{WILL}\u{1}{DOUBLED}x{SB}");
            let mut gateway = check_said(SERVER, &said, "", "");
            let removed = gateway.removed(SERVER);
            check(
                &mut gateway,
                &[
                    (Client("AUTH\r\n"), "AUTH\r\n", &all),
                    (Server(&raw), "", &raw),
                    (Client(&raw), &raw, ""),
                    (ServerEnd, "", ""),
                    (ClientEnd, "", ""),
                ],
            );
            assert_eq!(gateway.removed(SERVER), removed);
        }
    }
}

/// So with a server line that flows, where none are held.
#[test]
fn auth_in_every_state_of_a_flowing_server_line() {
    let line = "x".repeat(600);
    for (start, left) in STATES {
        check_greeted(
            ALL_ON,
            &[
                (Server(&line), "", &line),
                (Server(start), "", ""),
                (Client("AUTH\r\n"), "AUTH\r\n", left),
                (Server("\u{1}\u{ff}"), "", "\u{1}\u{ff}"),
            ],
        );
    }
}

/// AUTH behind a reply that is owed leaves the server's layer alone until that has come.
#[test]
fn auth_behind_a_reply_leaves_the_layer_alone() {
    let then_raw = format!("200 ok\r\n{WILL}\u{1}");
    let said = format!("a{SE}200 ok\r\n{WILL}\u{1}");
    let mut gateway = check_said(SERVER, &format!("{SB}\u{18}"), "", "");
    check(
        &mut gateway,
        &[
            (Client("NOOP\r\nAUTH\r\n"), "NOOP\r\nAUTH\r\n", ""),
            (Server(&said), "", &then_raw),
        ],
    );
    assert_eq!(gateway.removed(SERVER), 6);
}

/// A client octet that makes AUTH waits for the room of the server's held octets, doubled, and of
/// its command.
#[test]
fn number_2_for_auth_in_every_state() {
    for (start, left) in STATES {
        let mut gateway = check_said(SERVER, &format!("x{DOUBLED}{start}"), "", "");
        let length = 3 + octets(left).len();
        let outcome = gateway.arrive(CLIENT, b"AUTH\r\n", 6, length - 1);
        check_stopped(&outcome, 2, 5);
        let before = gateway.clone();
        check_stopped(&gateway.arrive(CLIENT, b"\n", 6, length - 1), 2, 0);
        assert_eq!(gateway, before);
        let outcome = gateway.arrive(CLIENT, b"\n", 6, length);
        assert_eq!(
            (outcome.answer, text(&outcome.to_server)),
            (0, "AUTH\r\n".into())
        );
        assert_eq!(text(&outcome.to_client), format!("x{DOUBLED}{left}"));
    }
}

/// The command passes first, then the line is AUTH, and what follows its LF passes as it is.
#[test]
fn commands_inside_auth() {
    let said = format!("AU{NOP}T{SB}x{SE}{WILL}\u{1}H\n{DO}\u{1}{DOUBLED}{SB}");
    let onward = format!("{NOP}AUTH\n{DO}\u{1}{DOUBLED}{SB}");
    let back = format!("{DONT}\u{1}");
    let gateway = check_said(CLIENT, &said, &onward, &back);
    assert_eq!(gateway.removed(CLIENT), 5);
}

/// "A doubled 255 is one data octet of a line and leaves doubled": in a line that passes, in one
/// that is made into another, and in none that is read for a word, a code or a number.
#[test]
fn doubled_255_in_lines() {
    for (said, onward) in [
        ("NOOP \u{ff}\u{ff}\r\n", "NOOP \u{ff}\u{ff}\r\n"),
        ("\u{ff}\u{ff}\n", "\u{ff}\u{ff}\n"),
        ("\u{ff}\u{ff}EPSV\n", "\u{ff}\u{ff}EPSV\n"),
        ("EPSV\u{ff}\u{ff}\n", "EPSV\u{ff}\u{ff}\n"),
        ("EPSV \u{ff}\u{ff}\n", "EPSV \u{ff}\u{ff}\n"),
        (
            "a\u{ff}\u{ff}\u{ff}\u{ff}b\n",
            "a\u{ff}\u{ff}\u{ff}\u{ff}b\n",
        ),
        // The third 255 begins a command.
        (
            "a\u{ff}\u{ff}\u{ff}\u{f1}b\n",
            "\u{ff}\u{f1}a\u{ff}\u{ff}b\n",
        ),
        ("a\u{ff}\u{ff}\u{fb}b\n", "a\u{ff}\u{ff}\u{fb}b\n"),
    ] {
        check_said(CLIENT, said, onward, "");
    }
    let algs = "ALGS \u{ff}\u{ff}\n";
    check_greeted(ALL_ON, &[(Client(algs), "", NOT_IMPLEMENTED)]);
    let passive = "227 \u{ff}\u{ff} (192,0,2,31,237,19)\u{ff}\u{ff}\r\n";
    let unreadable = "227 (192,\u{ff}\u{ff}0,2,31,237,19)\r\n";
    check_greeted(
        ALL_ON,
        &[
            (Client("EPSV\nEPSV\n"), "PASV\r\nPASV\r\n", ""),
            (Server(passive), "", EXTENDED_PASSIVE),
            (Server(unreadable), "", unreadable),
            (Client("EPSV 1\n"), "", NOT_SUPPORTED),
        ],
    );
    // A code with a 255 in it ends no reply.
    let alone = "2\u{ff}\u{ff}20 x\n";
    check_fresh(
        ALL_ON,
        &[
            (Client("EPSV 1\n"), "", ""),
            (Server(alone), "", alone),
            (Server("220\n"), "", &format!("220\n{NOT_SUPPORTED}")),
        ],
    );
}

/// One octet of the 512: a line of 511 data octets and a LF is judged whole whatever it holds.
#[test]
fn doubled_255_among_the_512() {
    let spaces = " ".repeat(506);
    // 512 with its LF, one 255 among them: not EPSV's argument, but judged whole.
    let whole = format!("ALGS {}{DOUBLED}\n", " ".repeat(505));
    check_said(CLIENT, &whole, "", NOT_IMPLEMENTED);
    // One more: it flows.
    let flowing = format!("ALGS {spaces}{DOUBLED}\n");
    check_said(CLIENT, &flowing, &flowing, "");
    // 511 octets 255 are held, twice as many octets arrived.
    for direction in [CLIENT, SERVER] {
        let mut gateway = check_said(direction, &DOUBLED.repeat(511), "", "");
        check(&mut gateway, &[ends(direction, &DOUBLED.repeat(511))]);
        let line = format!("{}\n", DOUBLED.repeat(511));
        check_said(direction, &line, &line, "");
        let line = DOUBLED.repeat(512);
        check_said(direction, &line, &line, "");
    }
}

/// A doubled 255 at the 510th to the 514th octet of a line, with room for all before it and for
/// one octet of the two: it waits inside, and is taken with room for both.
#[test]
fn doubled_255_about_the_512th_octet() {
    for direction in [CLIENT, SERVER] {
        for place in 509..514 {
            let start = "x".repeat(place);
            let mut gateway = greeted(ALL_ON);
            let held = place < 512;
            let onward = if held { "" } else { &start };
            check(&mut gateway, &[says(direction, &start, onward, "")]);
            let flows = place >= 511;
            let needed = match place {
                0..511 => 0,
                511 => 513,
                _ => 2,
            };
            if flows {
                let room = needed - 1;
                let outcome = gateway.arrive(direction, &[255, 255], room, room);
                check_stopped(&outcome, 2, 1);
                let before = gateway.clone();
                check_stopped(&gateway.arrive(direction, &[255], room, room), 2, 0);
                assert_eq!(gateway, before);
            } else {
                check_stopped(&gateway.arrive(direction, &[255], 0, 0), 0, 1);
            }
            let outcome = gateway.arrive(direction, &[255], needed, needed);
            let written = [outcome.to_server, outcome.to_client].concat();
            let expected = match place {
                0..511 => String::new(),
                511 => format!("{start}{DOUBLED}"),
                _ => DOUBLED.into(),
            };
            assert_eq!((outcome.answer, text(&written)), (0, expected), "{place}");
            // What follows: a LF that finishes a line judged whole or one that flows.
            let line = if flows {
                "\n".into()
            } else {
                format!("{start}{DOUBLED}\n")
            };
            check(&mut gateway, &[says(direction, "\n", &line, "")]);
        }
    }
}

/// "If its first five octets are AUTH and a space": recognised at the 512th octet, the second of a
/// doubled 255, with the room that it needs in both buffers.
#[test]
fn auth_of_a_flowing_line_at_a_doubled_255() {
    for line in [
        format!("AUTH {}", "x".repeat(506)),
        format!("auth {}", DOUBLED.repeat(506)),
    ] {
        let mut gateway = greeted(ALL_ON);
        let needed = octets(&line).len() + 2;
        check(
            &mut gateway,
            &[(Server("2\u{ff}"), "", ""), (Client(&line), "", "")],
        );
        check_stopped(&gateway.arrive(CLIENT, &[255, 255], needed - 1, 2), 2, 1);
        check_stopped(&gateway.arrive(CLIENT, &[255], needed, 1), 2, 0);
        let outcome = gateway.arrive(CLIENT, &[255], needed, 2);
        assert_eq!((outcome.answer, outcome.taken), (0, 1));
        assert_eq!(text(&outcome.to_server), format!("{line}{DOUBLED}"));
        assert_eq!(text(&outcome.to_client), "2\u{ff}");
        check(
            &mut gateway,
            &[
                (
                    Client("\u{ff}EPSV\n\u{ff}\u{fb}"),
                    "\u{ff}EPSV\n\u{ff}\u{fb}",
                    "",
                ),
                (Server("\u{fb}\u{1}\u{ff}"), "", "\u{fb}\u{1}\u{ff}"),
            ],
        );
    }
    // AUTH and a 255 is none.
    let line = format!("AUTH{}", DOUBLED.repeat(508));
    check_greeted(
        ALL_ON,
        &[
            (Client(&line), &line, ""),
            (Client("\nEPSV 1\n"), "\n", ""),
            (Server("200\n"), "", &format!("200\n{NOT_SUPPORTED}")),
        ],
    );
}

/// A direction that passes at once neither halves nor doubles, nor counts.
#[test]
fn octets_that_pass_at_once() {
    let raw = format!("{IAC}x{DOUBLED}{WILL}\u{1}{SB}a{SE}{IAC}");
    let mut gateway = greeted(ALL_ON);
    check(
        &mut gateway,
        &[
            (Client("AUTH\n"), "AUTH\n", ""),
            (Client(&raw), &raw, ""),
            (Server(&raw), "", &raw),
            (Client("\u{fb}"), "\u{fb}", ""),
            (ClientEnd, "", ""),
            (ServerEnd, "", ""),
        ],
    );
    assert_eq!([gateway.removed(CLIENT), gateway.removed(SERVER)], [0, 0]);
}

/// A flowing line is judged by its first four data octets.
#[test]
fn a_flowing_reply_with_commands_in_its_code() {
    let line = format!("2{NOP}1{WILL}\u{1}4{SB}x{SE}-{}\n", "x".repeat(600));
    let passed = format!("{NOP}214-{}\n", "x".repeat(600));
    let then_522 = format!("214 x\n{NOT_SUPPORTED}");
    check_greeted(
        ALL_ON,
        &[
            (Server(&line), &format!("{DONT}\u{1}"), &passed),
            (Client("EPSV 1\n"), "", ""),
            (Server("220 x\n"), "", "220 x\n"),
            (Server("214 x\n"), "", &then_522),
        ],
    );
}

/// An answer or a command that does not fit stops the arrival before its last octet: the rest is
/// unfinished in the record, and it is written whole once there is room.
#[test]
fn rooms_refused_inside_a_command() {
    let rows = [
        // The octets up to the last, that one, and how many go on and back at it.
        (WILL, "\u{1}", 0, 3),
        (DO, "\u{1}", 0, 3),
        (IAC, "\u{f1}", 2, 0),
        (IAC, "\n", 2, 0),
    ];
    for direction in [CLIENT, SERVER] {
        for line in ["x".to_string(), "x".repeat(600)] {
            for (start, last, onward, back) in rows {
                let mut gateway = greeted(ALL_ON);
                arrive(&mut gateway, direction, &line);
                let command = format!("{start}{last}");
                let taken = octets(start).len();
                let rooms = |onward: usize, back: usize| {
                    if direction == CLIENT {
                        [onward, back]
                    } else {
                        [back, onward]
                    }
                };
                // The rooms of the other buffer do not help.
                let less = if onward > 0 {
                    rooms(onward - 1, PLENTY)
                } else {
                    rooms(PLENTY, back - 1)
                };
                let outcome = gateway.arrive(direction, &octets(&command), less[0], less[1]);
                check_stopped(&outcome, 2, taken);
                let before = gateway.clone();
                let outcome = gateway.arrive(direction, &octets(last), 0, 0);
                check_stopped(&outcome, 2, 0);
                assert_eq!(gateway, before);
                // The end may come there: then the command passes unanswered.
                let held = if line.len() > 512 { "" } else { &line };
                check(
                    &mut before.clone(),
                    &[ends(direction, &format!("{held}{start}"))],
                );
                let enough = rooms(onward, back);
                let outcome = gateway.arrive(direction, &octets(last), enough[0], enough[1]);
                assert_eq!((outcome.answer, outcome.taken), (0, 1));
                let written = outcome.to_server.len() + outcome.to_client.len();
                assert_eq!(written, onward + back);
            }
        }
    }
}

/// WONT, DONT, a first 255 and subnegotiations need no room, also behind a line that flows and has
/// just filled its own.
#[test]
fn octets_that_need_no_room() {
    let silent = format!("{WONT}\u{1}{DONT}\n{SB}a\n{SE}{IAC}");
    for direction in [CLIENT, SERVER] {
        let mut gateway = greeted(ALL_ON);
        let outcome = gateway.arrive(direction, &octets(&silent), 0, 0);
        check_stopped(&outcome, 0, octets(&silent).len());
        assert_eq!(gateway.removed(direction), 6);
        let mut gateway = greeted(ALL_ON);
        let line = "x".repeat(600);
        let said = octets(&format!("{line}{silent}{IAC}"));
        let outcome = gateway.arrive(direction, &said, 600, 600);
        assert_eq!((outcome.answer, outcome.taken), (2, said.len() - 1));
        let outcome = gateway.arrive(direction, &octets(IAC), 2, 2);
        assert_eq!((outcome.answer, outcome.taken), (0, 1));
    }
}

/// "A line that flows": its LF and the octets about it wait for their own room only.
#[test]
fn every_room_inside_a_flowing_line() {
    let said = octets(&format!("ab{DOUBLED}c{NOP}d{WONT}\u{1}e\nNOOP\n"));
    for direction in [CLIENT, SERVER] {
        for room in 0..20 {
            let mut gateway = greeted(ALL_ON);
            arrive(&mut gateway, direction, &"x".repeat(600));
            let mut single = gateway.clone();
            let outcome = gateway.arrive(direction, &said, room, room);
            let (mut taken, mut written) = (0, 0);
            for octet in said.chunks(1) {
                let left = room - written;
                let one = single.arrive(direction, octet, left, left);
                taken += one.taken;
                written += one.to_server.len() + one.to_client.len();
                if one.answer == 2 {
                    break;
                }
            }
            let all = outcome.to_server.len() + outcome.to_client.len();
            assert_eq!((outcome.taken, all), (taken, written), "room {room}");
            assert_eq!(gateway, single, "room {room}");
        }
    }
}

/// Both buffers for every octet: a server octet may wait for the server's room, a client octet for
/// the client's, with nothing else to write.
#[test]
fn number_2_looks_at_both_buffers() {
    let mut gateway = greeted(ALL_ON);
    let offer = octets(&format!("{WILL}\u{1}"));
    let outcome = gateway.arrive(SERVER, &offer, 2, PLENTY);
    check_stopped(&outcome, 2, 2);
    let outcome = gateway.arrive(SERVER, &offer[2..], 3, 0);
    assert_eq!(text(&outcome.to_server), format!("{DONT}\u{1}"));
    let outcome = gateway.arrive(CLIENT, &offer, PLENTY, 2);
    check_stopped(&outcome, 2, 2);
    let outcome = gateway.arrive(CLIENT, &offer[2..], 0, 3);
    assert_eq!(text(&outcome.to_client), format!("{DONT}\u{1}"));
}

/// The room that the answers of one arrival have left counts for the next.
#[test]
fn answers_fill_the_room() {
    let offers = octets(&format!("{WILL}\u{1}").repeat(4));
    let mut gateway = greeted(ALL_ON);
    let outcome = gateway.arrive(SERVER, &offers, 8, 0);
    assert_eq!((outcome.answer, outcome.taken), (2, 8));
    assert_eq!(text(&outcome.to_server), format!("{DONT}\u{1}").repeat(2));
}

/// "Answers to the server count as written in direction 0", to the client in direction 1, passed
/// commands in their own.
#[test]
fn offsets_with_telnet() {
    let mut gateway = greeted(ALL_ON);
    let offer = format!("{WILL}\u{1}");
    let answer = format!("{DONT}\u{1}");
    let mut check_offsets = |step: Expected, server: i32, client: i32| {
        check(&mut gateway, &[step]);
        let offsets = (gateway.offset(CLIENT), gateway.offset(SERVER));
        assert_eq!(offsets, (server as u32, client as u32));
    };
    check_offsets((Server(&offer), &answer, ""), 3, -3);
    check_offsets((Client(&offer), "", &answer), 0, 0);
    check_offsets((Client(NOP), NOP, ""), 0, 0);
    check_offsets((Server(NOP), "", NOP), 0, 0);
    check_offsets((Client("\u{ff}\u{ff}"), "", ""), -2, 0);
    check_offsets((Client("\n"), "\u{ff}\u{ff}\n", ""), 0, 0);
    check_offsets((Server("\u{ff}\u{fa}a\u{ff}\u{f0}"), "", ""), 0, -5);
    check_offsets((Server("2\u{ff}\u{fc}"), "", ""), 0, -8);
    check_offsets((ServerEnd, "", "2\u{ff}\u{fc}"), 0, -5);
    check_offsets((Client("\u{ff}\u{fe}\u{1}\u{ff}"), "", ""), -4, -5);
    check_offsets((ClientEnd, "\u{ff}", ""), -3, -5);
}

/// "Recompute the bounds": 1,024 to the server, reached by a line that flows from its 512th octet
/// on, all 255.
#[test]
fn most_octets_to_the_server() {
    let mut gateway = check_said(CLIENT, &format!("{}{IAC}", DOUBLED.repeat(511)), "", "");
    check_stopped(&gateway.arrive(CLIENT, &[255], 1023, PLENTY), 2, 0);
    let outcome = gateway.arrive(CLIENT, &[255], 1024, 0);
    assert_eq!(outcome.to_server, [255; 1024]);
    // An end writes as much: 511 held octets and two of a command.
    let mut gateway = check_said(CLIENT, &format!("{}{WILL}", DOUBLED.repeat(511)), "", "");
    check_stopped(&gateway.end(CLIENT, 1023, PLENTY), 2, 0);
    assert_eq!(gateway.end(CLIENT, 1024, 0).to_server.len(), 1024);
}

/// 1,787 to the client: a code, a space and 507 octets 255, a LF, and 16 answers of 48.
#[test]
fn most_octets_to_the_client() {
    let mut gateway = greeted(ALL_ON);
    let line = format!("200 {}", DOUBLED.repeat(507));
    check(
        &mut gateway,
        &[
            (Server("200-a\n"), "", "200-a\n"),
            (Client(&"ALGS\n".repeat(16)), "", ""),
            (Server(&line), "", ""),
        ],
    );
    check_stopped(&gateway.arrive(SERVER, b"\n", PLENTY, 1786), 2, 0);
    let all = format!("{line}\n{}", NOT_IMPLEMENTED.repeat(16));
    let outcome = gateway.arrive(SERVER, b"\n", 0, 1787);
    assert_eq!((outcome.answer, outcome.to_client.len()), (0, 1787));
    assert_eq!(text(&outcome.to_client), all);
}

/// A command of each state, finished in each way, cut into two at every octet, and octet by octet:
/// the same octets, and an equal record.
#[test]
fn every_state_cut_at_every_octet() {
    let long = DOUBLED.repeat(250);
    let talks = [
        format!("EP{WILL}\u{1}SV{DO}\n \r\n"),
        format!("{WONT}\nEPSV{DONT}{IAC} 1{NOP}\r\n"),
        format!("{SB}\u{18}\n{DOUBLED}\u{f0}{IAC}\u{fb}\u{1}{SE}22{DOUBLED}0 x\r{IAC}\n\n"),
        format!("2{IAC}\n14-x\n{SE}\n214{WILL}\u{f0} x\n"),
        format!("AUTH {long}{NOP}{long}{WILL}\u{1}{long}{DOUBLED}{SB}x\n{SE}{long}\n"),
        format!("220 {long}{NOP}{long}{WILL}\u{1}{DOUBLED}{SB}x\n{SE}{long}\n{IAC}"),
        format!("A{SB}{SE}UTH{NOP}\n{WILL}\u{1}{DOUBLED}{SB}"),
        format!("x{SB}y{IAC}"),
        format!("{DOUBLED}{DOUBLED}{IAC}"),
    ];
    for talk in talks {
        let said = octets(&talk);
        for direction in [CLIENT, SERVER] {
            let mut whole = greeted(ALL_ON);
            let all = whole.arrive(direction, &said, PLENTY, PLENTY);
            for cut in 0..=said.len() {
                let (first, second) = said.split_at(cut);
                check_pieces(direction, &[first, second], &all, &whole);
            }
            let singles: Vec<&[u8]> = said.chunks(1).collect();
            check_pieces(direction, &singles, &all, &whole);
        }
    }
}

#[track_caller]
fn check_pieces(direction: u8, pieces: &[&[u8]], all: &Outcome, whole: &Gateway) {
    let mut gateway = greeted(ALL_ON);
    let mut joined = Outcome::default();
    for piece in pieces {
        let outcome = gateway.arrive(direction, piece, PLENTY, PLENTY);
        assert_eq!(outcome.answer, 0);
        joined.taken += outcome.taken;
        joined.to_server.extend(outcome.to_server);
        joined.to_client.extend(outcome.to_client);
    }
    assert_eq!(&joined, all);
    assert_eq!(&gateway, whole);
}

/// As many octets taken and written, but others removed: another record.
#[test]
fn the_count_of_removed_octets_is_part_of_the_record() {
    let removed = format!("{SB}ab{SE}");
    let dropped = format!("{WONT}\u{1}{DONT}\u{1}");
    for direction in [CLIENT, SERVER] {
        let one = check_said(direction, &removed, "", "");
        let other = check_said(direction, &dropped, "", "");
        assert_eq!(one.offset(direction), other.offset(direction));
        assert_ne!(one, other);
    }
}

/// States that only what follows tells apart are others in the record.
#[test]
fn states_are_part_of_the_record() {
    for direction in [CLIENT, SERVER] {
        let gateways = STATES.map(|(start, _)| check_said(direction, start, "", ""));
        for (one, (first, _)) in gateways.iter().zip(STATES) {
            for (other, (second, _)) in gateways.iter().zip(STATES) {
                assert_eq!(one == other, first == second);
            }
        }
    }
}
