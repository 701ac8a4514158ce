//! "Session files": the report, the refusals in their order, and the program.

use std::fs;
use std::io::Write;
use std::process::{Command, Output, Stdio};

use reference::files::report;

use crate::talk::{CLIENT_ADDRESS, MAPPED, SERVER_ADDRESS};

const CLIENT_OCTETS: u8 = 0;
const SERVER_OCTETS: u8 = 1;
const CLIENT_END: u8 = 2;
const SERVER_END: u8 = 3;
const SETUP: u8 = 4;

/// Document 01's example: "setup with flags 1, `220 hi`, `EPSV`, `227 x (192,0,2,31,237,19)`".
const PRINTED: &str = r"FTP64 REPORT 4
0 0 0 - -
1 8 0 - 220\20hi\0d\0a
2 6 0 PASV\0d\0a -
3 27 0 - 229\20Entering\20Extended\20Passive\20Mode\20(|||60691|)\0d\0a
";

fn setup(flags: u8) -> Vec<u8> {
    [&CLIENT_ADDRESS[..], &MAPPED, &[flags], &SERVER_ADDRESS].concat()
}

fn file(entries: &[(u8, &[u8])]) -> Vec<u8> {
    let mut file = (entries.len() as u16).to_be_bytes().to_vec();
    for (kind, body) in entries {
        file.extend([*kind, 0]);
        file.extend((body.len() as u16).to_be_bytes());
    }
    for (_, body) in entries {
        file.extend(*body);
    }
    file
}

fn printed_file() -> Vec<u8> {
    file(&[
        (SETUP, &setup(1)),
        (SERVER_OCTETS, b"220 hi\r\n"),
        (CLIENT_OCTETS, b"EPSV\r\n"),
        (SERVER_OCTETS, b"227 x (192,0,2,31,237,19)\r\n"),
    ])
}

/// A session file of entries after a setup with all on, and the lines after the setup's.
#[track_caller]
fn check_report(entries: &[(u8, &[u8])], lines: &str) {
    let setup = setup(7);
    let entries = [&[(SETUP, &setup[..])], entries].concat();
    let expected = format!("FTP64 REPORT {}\n0 0 0 - -\n{lines}", entries.len());
    assert_eq!(report(&file(&entries)), expected);
}

#[track_caller]
fn check_refused(file: &[u8], number: u8) {
    assert_eq!(report(file), format!("REFUSED {number}\n"));
}

#[test]
fn the_printed_report() {
    assert_eq!(report(&printed_file()), PRINTED);
}

#[test]
fn a_setup_alone() {
    for flags in [0, 1, 2, 3, 6, 7, 8, 9, 10, 11, 14, 15] {
        let file = file(&[(SETUP, &setup(flags))]);
        assert_eq!(report(&file), "FTP64 REPORT 1\n0 0 0 - -\n");
    }
}

/// The same 227s in the strict form and without it; the setup's last four octets decide.
#[test]
fn a_strict_session() {
    let answers = |flags| {
        let entries = [
            (SETUP, &setup(flags)[..]),
            (SERVER_OCTETS, b"220\n"),
            (CLIENT_OCTETS, b"EPSV\nEPSV\n"),
            (SERVER_OCTETS, b"227 192,0,2,31,237,19\n"),
            (SERVER_OCTETS, b"227 198,51,100,7,237,19\n"),
        ];
        let report = report(&file(&entries));
        let lines = report.lines().skip(4).map(str::to_string);
        lines.collect::<Vec<String>>()
    };
    let extended = r"229\20Entering\20Extended\20Passive\20Mode\20(|||60691|)\0d\0a";
    let refused = r"425\20Can't\20open\20data\20connection.\0d\0a";
    let own = format!("4 24 0 - {extended}");
    assert_eq!(
        answers(9),
        [&format!("3 22 0 - {refused}"), &own].map(String::clone)
    );
    assert_eq!(
        answers(1),
        [&format!("3 22 0 - {extended}"), &own].map(String::clone)
    );
}

#[test]
fn ends_take_nothing_and_give_what_is_held() {
    check_report(
        &[
            (CLIENT_OCTETS, b"EPS"),
            (SERVER_OCTETS, b"22"),
            (SERVER_OCTETS, b""),
            (CLIENT_END, b""),
            (SERVER_END, b""),
        ],
        "1 3 0 - -\n2 2 0 - -\n3 0 0 - -\n4 0 0 EPS -\n5 0 0 - 22\n",
    );
}

/// `-` is always escaped, not only where it stands alone.
#[test]
fn escapes() {
    let octets: Vec<u8> = (0..=255).filter(|&octet| octet != b'\n').collect();
    let octets = [&octets[..], b"\xff"].concat();
    let mut shown = String::new();
    for &octet in &octets {
        match octet {
            b'!'..=b'~' if octet != b'-' && octet != b'\\' => shown.push(char::from(octet)),
            _ => shown += &format!("\\{octet:02x}"),
        }
    }
    assert!(shown.contains(r"\1f\20!") && shown.contains(r",\2d.") && shown.contains(r"~\7f\80"));
    assert!(shown.contains(r"[\5c]") && shown.ends_with(r"\fe\ff\ff"));
    let lines = format!("1 256 0 - -\n2 1 0 {shown}\\0a -\n3 2 0 \\2d\\0a -\n");
    check_report(
        &[
            (CLIENT_OCTETS, &octets),
            (CLIENT_OCTETS, b"\n"),
            (CLIENT_OCTETS, b"-\n"),
        ],
        &lines,
    );
}

#[test]
fn both_sides_in_one_entry() {
    check_report(
        &[
            (SERVER_OCTETS, b"220\n"),
            (CLIENT_OCTETS, b"a\nEPSV 1\n"),
            (SERVER_OCTETS, b"200\n"),
            (CLIENT_OCTETS, b"ALGS STATUS64\nEPSV\n"),
        ],
        "1 4 0 - 220\\0a\n\
         2 9 0 a\\0a -\n\
         3 4 0 - 200\\0a522\\20Network\\20protocol\\20not\\20supported\\0d\\0a\n\
         4 19 0 PASV\\0d\\0a 216\\20EPSVEPRT\\0d\\0a\n",
    );
}

/// The entry's own line comes first, and the header counts the table's entries.
#[test]
fn stopped_by_a_refused_setup() {
    for flags in [4, 5, 12, 13, 16, 24, 0x87, 0xff] {
        let file = file(&[(SETUP, &setup(flags)), (SERVER_OCTETS, b"220 hi\r\n")]);
        assert_eq!(report(&file), "FTP64 REPORT 2\n0 0 5 - -\nSTOPPED\n");
    }
}

#[test]
fn stopped_by_a_full_queue() {
    let lines = b"a\n".repeat(20);
    let expected = format!("1 30 1 {} -\nSTOPPED\n", "a\\0a".repeat(15));
    check_report(
        &[(CLIENT_OCTETS, &lines), (SERVER_OCTETS, b"220\n")],
        &expected,
    );
}

#[test]
fn stopped_after_an_end() {
    check_report(
        &[(CLIENT_END, b""), (CLIENT_OCTETS, b"a\n")],
        "1 0 0 - -\n2 0 6 - -\nSTOPPED\n",
    );
    check_report(
        &[(SERVER_END, b""), (SERVER_END, b""), (CLIENT_END, b"")],
        "1 0 0 - -\n2 0 6 - -\nSTOPPED\n",
    );
}

/// The most that one entry can write fits into the buffers.
#[test]
fn the_longest_entries() {
    let lines = b"ALGS\n".repeat(205);
    let setup = setup(7);
    let mut entries = vec![(SETUP, &setup[..]), (SERVER_OCTETS, b"220\n")];
    entries.push((CLIENT_OCTETS, &lines[..1024]));
    let report = report(&file(&entries));
    let answer = r"504\20Command\20not\20implemented\20for\20that\20parameter\0d\0a";
    assert!(report.ends_with(&format!("2 1024 0 - {}\n", answer.repeat(204))));
}

#[test]
fn forty_eight_entries() {
    let setup = setup(7);
    let mut entries = vec![(SETUP, &setup[..])];
    entries.resize(48, (CLIENT_OCTETS, &b"x"[..]));
    let report = report(&file(&entries));
    assert!(report.starts_with("FTP64 REPORT 48\n0 0 0 - -\n1 1 0 - -\n"));
    assert!(report.ends_with("46 1 0 - -\n47 1 0 - -\n"));
    entries.push((CLIENT_OCTETS, b"x"));
    check_refused(&file(&entries), 8);
}

/// "Table cut", and "file length not what the table says".
#[test]
fn every_cut_and_every_addition_is_refused() {
    let file = printed_file();
    for length in 0..file.len() {
        check_refused(&file[..length], 7);
    }
    for more in [&b"\0"[..], b"xx", &[0; 1000]] {
        check_refused(&[&file[..], more].concat(), 7);
    }
}

#[test]
fn wrong_counts() {
    for count in [0u16, 49, 256, 0x0100 + 4, 0xffff] {
        let mut file = printed_file();
        file[..2].copy_from_slice(&count.to_be_bytes());
        check_refused(&file, 8);
        // The count is looked at before the table.
        check_refused(&file[..2], 8);
        check_refused(&file[..5], 8);
    }
    // One entry fewer leaves octets over; a table of 48 is longer than the file.
    let mut file = printed_file();
    file[1] = 3;
    check_refused(&file, 7);
    file[1] = 48;
    check_refused(&file, 7);
}

#[test]
fn wrong_kinds() {
    for kind in 5..=255 {
        let mut file = printed_file();
        file[6] = kind;
        check_refused(&file, 8);
        file[6] = SERVER_OCTETS;
        file[2] = kind;
        check_refused(&file, 8);
    }
}

/// "First entry and only there": it must be there, and only there.
#[test]
fn wrong_order() {
    check_refused(&file(&[(CLIENT_OCTETS, b"EPSV\r\n")]), 8);
    check_refused(&file(&[(CLIENT_END, b"")]), 8);
    check_refused(&file(&[(SERVER_OCTETS, b""), (SETUP, &setup(1))]), 8);
    check_refused(&file(&[(SETUP, &setup(1)), (SETUP, &setup(1))]), 8);
    // An entry of 25 octets that is no setup does not stand for one.
    check_refused(&file(&[(CLIENT_OCTETS, &setup(1))]), 8);
}

#[test]
fn wrong_zero_octets() {
    for entry in 0..4 {
        for octet in 1..=255 {
            let mut file = printed_file();
            file[2 + 4 * entry + 1] = octet;
            check_refused(&file, 8);
        }
    }
}

#[test]
fn wrong_lengths() {
    let setup = setup(1);
    // 21 octets were a setup before it named the server.
    for length in [0, 1, 20, 21, 22, 24, 26, 1024] {
        check_refused(&file(&[(SETUP, &vec![0; length])]), 8);
    }
    for kind in [CLIENT_END, SERVER_END] {
        check_refused(&file(&[(SETUP, &setup), (kind, b"x")]), 8);
        check_refused(&file(&[(SETUP, &setup), (kind, &[0; 256])]), 8);
    }
    for kind in [CLIENT_OCTETS, SERVER_OCTETS] {
        let good = file(&[(SETUP, &setup), (kind, &[b'x'; 1024])]);
        assert!(report(&good).starts_with("FTP64 REPORT 2\n"));
        check_refused(&file(&[(SETUP, &setup), (kind, &[b'x'; 1025])]), 8);
        check_refused(&file(&[(SETUP, &setup), (kind, &[b'x'; 65535])]), 8);
    }
}

/// "Order: two octets present, count, table present, entries, total."
#[test]
fn the_order_of_refusals() {
    // A wrong entry in a table that is cut: the table first.
    check_refused(&[0, 2, 9, 9, 9, 9], 7);
    check_refused(&[0, 1, 9, 9, 9], 7);
    // A wrong entry and a wrong total: the entry first.
    check_refused(&[0, 1, 9, 9, 9, 9], 8);
    check_refused(&[0, 1, SETUP, 0, 0, 21], 8);
    check_refused(&[0, 1, SETUP, 0, 0, 26], 8);
    let mut file = printed_file();
    file[8] = 0xff;
    check_refused(&file, 8);
    // A good table without its bodies: the total.
    check_refused(&[0, 1, SETUP, 0, 0, 25], 7);
    // Less than a count, and a count with nothing after it.
    check_refused(&[], 7);
    check_refused(&[0], 7);
    check_refused(&[1], 7);
    check_refused(&[0, 0], 8);
}

/// Any one octet of the table changed: never a report unless the table still fits the file.
#[test]
fn every_octet_of_the_table_changed() {
    let good = printed_file();
    for place in 0..2 + 4 * 4 {
        for octet in 0..=255 {
            let mut file = good.clone();
            file[place] = octet;
            let report = report(&file);
            let other_side = [6, 10, 14].contains(&place) && octet <= SERVER_OCTETS;
            let fits = file == good || other_side;
            assert_eq!(
                report.starts_with("FTP64 REPORT 4\n"),
                fits,
                "{place} {octet}"
            );
            assert_eq!(report.starts_with("REFUSED "), !fits, "{place} {octet}");
        }
    }
}

fn replay(arguments: &[&str], input: &[u8]) -> Output {
    let mut replay = Command::new(env!("CARGO_BIN_EXE_replay"))
        .args(arguments)
        .stdin(Stdio::piped())
        .stdout(Stdio::piped())
        .stderr(Stdio::piped())
        .spawn()
        .expect("the program starts");
    let mut pipe = replay.stdin.take().expect("a pipe");
    // The program need not read its input where it has a file to read.
    let _ = pipe.write_all(input);
    drop(pipe);
    replay.wait_with_output().expect("the program ends")
}

#[test]
fn the_program_reads_standard_input() {
    let output = replay(&[], &printed_file());
    assert_eq!(output.stdout, PRINTED.as_bytes());
    assert_eq!((output.status.code(), output.stderr), (Some(0), vec![]));
    let output = replay(&[], b"\0");
    assert_eq!(output.stdout, b"REFUSED 7\n");
    assert_eq!(output.status.code(), Some(0));
}

#[test]
fn the_program_reads_a_file() {
    let path = concat!(env!("CARGO_TARGET_TMPDIR"), "/printed.session");
    fs::write(path, printed_file()).expect("a file to write");
    let output = replay(&[path], b"");
    assert_eq!(output.stdout, PRINTED.as_bytes());
    assert_eq!((output.status.code(), output.stderr), (Some(0), vec![]));
}

#[test]
fn the_program_refuses_what_it_cannot_open() {
    let path = concat!(env!("CARGO_TARGET_TMPDIR"), "/missing.session");
    for arguments in [&[path][..], &[path, path]] {
        let output = replay(arguments, b"");
        assert_eq!((output.status.code(), output.stdout), (Some(2), vec![]));
        assert!(!output.stderr.is_empty());
    }
}
