//! Lists of calls in octets.

use reference::calls::run_calls;

use crate::random::Random;
use crate::talk::{
    Gateway, CLIENT_ADDRESS, EXTENDED_PASSIVE, MAPPED, NOT_SUPPORTED, NO_CONNECTION, PASSIVE,
    SERVER_ADDRESS,
};

const ARRIVAL: u8 = 0;
const END: u8 = 1;

fn setup(flags: u8) -> Vec<u8> {
    [&CLIENT_ADDRESS[..], &MAPPED, &[flags], &SERVER_ADDRESS].concat()
}

fn call(kind: u8, direction: u8, rooms: [u16; 2], octets: &[u8]) -> Vec<u8> {
    let mut call = vec![kind, direction];
    for number in [rooms[0], rooms[1], octets.len() as u16] {
        call.extend(number.to_be_bytes());
    }
    [&call[..], octets].concat()
}

fn result(
    answer: u8,
    taken: u32,
    to_server: &[u8],
    to_client: &[u8],
    offsets: [i32; 2],
) -> Vec<u8> {
    let mut result = vec![answer];
    for count in [taken, to_server.len() as u32, to_client.len() as u32] {
        result.extend(count.to_be_bytes());
    }
    result.extend(to_server);
    result.extend(to_client);
    for offset in offsets {
        result.extend(offset.to_be_bytes());
    }
    result
}

/// Calls with the result each must have.
fn some_calls() -> Vec<(Vec<u8>, Vec<u8>)> {
    let room = [2000, 2000];
    let passive = PASSIVE.as_bytes();
    let extended = EXTENDED_PASSIVE.as_bytes();
    let not_supported = NOT_SUPPORTED.as_bytes();
    vec![
        (
            call(ARRIVAL, 1, room, b"220\n"),
            result(0, 4, b"", b"220\n", [0, 0]),
        ),
        (
            call(ARRIVAL, 0, [5, 0], b"EPSV\r\n"),
            result(2, 5, b"", b"", [-5, 0]),
        ),
        (
            call(ARRIVAL, 0, [6, 0], b"\n"),
            result(0, 1, b"PASV\r\n", b"", [0, 0]),
        ),
        (
            call(ARRIVAL, 1, room, passive),
            result(0, 47, b"", extended, [0, 1]),
        ),
        (
            call(ARRIVAL, 0, room, b"EPSV 1\n"),
            result(0, 7, b"", not_supported, [-7, 37]),
        ),
        (
            call(ARRIVAL, 2, room, b"x"),
            result(3, 0, b"", b"", [-7, 37]),
        ),
        (call(END, 255, room, b""), result(3, 0, b"", b"", [-7, 37])),
        (
            call(ARRIVAL, 0, [0, 0], b"abc"),
            result(0, 3, b"", b"", [-10, 37]),
        ),
        (call(END, 0, [2, 9], b""), result(2, 0, b"", b"", [-10, 37])),
        (
            call(END, 0, [3, 0], b""),
            result(0, 0, b"abc", b"", [-7, 37]),
        ),
        (
            call(ARRIVAL, 0, room, b""),
            result(6, 0, b"", b"", [-7, 37]),
        ),
    ]
}

#[test]
fn results_of_calls() {
    let mut script = setup(7);
    let mut results = vec![0];
    for (call, result) in some_calls() {
        script.extend(call);
        results.extend(result);
        assert_eq!(run_calls(&script), results);
    }
}

/// A setup's last four octets are the server's address.
#[test]
fn a_strict_script() {
    let own = b"227 198,51,100,7,237,19\n";
    let calls = [
        call(ARRIVAL, 1, [9, 9], b"220\n"),
        call(ARRIVAL, 0, [99, 0], b"EPSV\nEPSV\n"),
        call(ARRIVAL, 1, [0, 99], PASSIVE.as_bytes()),
        call(ARRIVAL, 1, [0, 99], own),
    ];
    let expected = [
        vec![0],
        result(0, 4, b"", b"220\n", [0, 0]),
        result(0, 10, b"PASV\r\nPASV\r\n", b"", [2, 0]),
        result(0, 47, b"", NO_CONNECTION.as_bytes(), [2, -14]),
        result(0, 24, b"", EXTENDED_PASSIVE.as_bytes(), [2, 10]),
    ];
    let script = [setup(9), calls.concat()].concat();
    assert_eq!(run_calls(&script), expected.concat());
}

/// "A script that is cut short ends at the last whole call."
#[test]
fn scripts_cut_short() {
    let mut script = setup(7);
    let mut results = vec![0];
    for length in 0..script.len() {
        assert_eq!(run_calls(&script[..length]), []);
    }
    for (call, result) in some_calls() {
        for length in 0..call.len() {
            let cut = [&script[..], &call[..length]].concat();
            assert_eq!(run_calls(&cut), results);
        }
        script.extend(call);
        results.extend(result);
    }
}

#[test]
fn a_refused_setup_runs_on() {
    let call = [call(ARRIVAL, 0, [9, 9], b"x"), call(END, 7, [9, 9], b"")].concat();
    let script = [setup(16), call].concat();
    let expected = [
        vec![5],
        result(4, 0, b"", b"", [0, 0]),
        result(3, 0, b"", b"", [0, 0]),
    ];
    assert_eq!(run_calls(&script), expected.concat());
}

/// An end's octets are passed over, and a call of another kind ends the script.
#[test]
fn scripts_of_another_form() {
    let calls = [
        call(END, 0, [9, 9], b"xyz"),
        call(END, 1, [9, 9], b""),
        call(2, 1, [9, 9], b""),
        call(ARRIVAL, 1, [9, 9], b""),
    ];
    let script = [setup(7), calls.concat()].concat();
    let done = result(0, 0, b"", b"", [0, 0]);
    assert_eq!(run_calls(&script), [vec![0], done.clone(), done].concat());
}

/// The room of a call is the most that two octets say.
#[test]
fn most_room() {
    let octets = [b'x'; 65535];
    let script = [setup(7), call(ARRIVAL, 0, [65535, 0], &octets)].concat();
    let expected = [vec![0], result(0, 65535, &octets, b"", [0, 0])].concat();
    assert_eq!(run_calls(&script), expected);
}

/// Any octets are a script, and its setup answers as the gateway's does.
#[test]
fn any_octets() {
    let mut random = Random::new(8);
    for _ in 0..20_000 {
        let mut script: Vec<u8> = (0..25).map(|_| random.octet()).collect();
        script[20] = random.below(17) as u8;
        for _ in 0..random.below(200) {
            let small = random.octet() % 3;
            script.push(if random.one_in(3) {
                random.octet()
            } else {
                small
            });
        }
        let (_, answer) = Gateway::setup(CLIENT_ADDRESS, MAPPED, script[20], SERVER_ADDRESS);
        assert_eq!(run_calls(&script)[0], answer);
    }
}
