//! A session as a text that `./session-file` reads. What a session file can't say (other rooms,
//! unknown directions) stands in comments.

use std::net::{Ipv4Addr, Ipv6Addr};

use crate::session::{Call, Session, Setup, What, FULL_ROOMS, LONGEST_BODY, STRICT};

/// A run this long is written with a star.
const LONG_RUN: usize = 16;

pub fn session_text(session: &Session) -> String {
    let mut text = setup_text(&session.setup) + "\n";
    for call in &session.calls {
        text += &(call_text(call) + "\n");
    }
    text
}

fn setup_text(setup: &Setup) -> String {
    let mut text = format!(
        "setup {} {} {}",
        Ipv6Addr::from(setup.client),
        Ipv4Addr::from(setup.mapped),
        Ipv4Addr::from(setup.server)
    );
    if setup.flags >= 16 {
        return format!("{text} flags {}", setup.flags);
    }
    let names = [
        (1, " epsv"),
        (2, " eprt-supported"),
        (4, " eprt"),
        (STRICT, " strict"),
    ];
    for (bit, name) in names {
        if setup.flags & bit != 0 {
            text += name;
        }
    }
    text
}

/// The line of a call.
pub fn call_text(call: &Call) -> String {
    let side = match call.direction {
        0 => "client".to_string(),
        1 => "server".to_string(),
        other => format!("# direction {other}"),
    };
    let octets = match &call.what {
        What::Arrival(octets) => octets_text(octets),
        What::End => "end".to_string(),
    };
    let cut = if call.octets().len() > LONGEST_BODY {
        "cut 1024 "
    } else {
        ""
    };
    format!("{cut}{side} {octets}{}", rooms_text(call))
}

fn rooms_text(call: &Call) -> String {
    if call.rooms == FULL_ROOMS {
        return String::new();
    }
    let (server, client) = (call.rooms.server, call.rooms.client);
    format!("  # room for {server} to the server, {client} to the client")
}

/// Quoted texts for the octets, a long run of one octet as a repetition.
pub fn octets_text(octets: &[u8]) -> String {
    let mut pieces = Vec::new();
    let mut plain = Vec::new();
    for run in octets.chunk_by(|one, next| one == next) {
        if run.len() < LONG_RUN {
            plain.extend(run);
            continue;
        }
        if !plain.is_empty() {
            pieces.push(quoted(&plain));
            plain.clear();
        }
        pieces.push(format!("{} * {}", quoted(&run[..1]), run.len()));
    }
    if !plain.is_empty() || pieces.is_empty() {
        pieces.push(quoted(&plain));
    }
    pieces.join(" ")
}

fn quoted(octets: &[u8]) -> String {
    let letters: String = octets.iter().copied().map(escaped).collect();
    format!("\"{letters}\"")
}

fn escaped(octet: u8) -> String {
    match octet {
        b'\r' => "\\r".to_string(),
        b'\n' => "\\n".to_string(),
        b'\t' => "\\t".to_string(),
        b'\\' => "\\\\".to_string(),
        b'"' => "\\\"".to_string(),
        32..=126 => char::from(octet).to_string(),
        _ => format!("\\x{octet:02x}"),
    }
}

#[cfg(test)]
mod tests {
    use super::*;
    use crate::generate;
    use crate::session::{Rooms, CLIENT_ADDRESS, MAPPED_ADDRESS, SERVER_ADDRESS};
    use std::io::Write;
    use std::process::{Command, Stdio};

    /// What `./session-file` makes of a text.
    fn made_by_tool(text: &str) -> Vec<u8> {
        let tool = concat!(env!("CARGO_MANIFEST_DIR"), "/../session-file");
        let mut child = Command::new(tool)
            .arg("-")
            .stdin(Stdio::piped())
            .stdout(Stdio::piped())
            .spawn()
            .expect("session-file runs");
        let mut input = child.stdin.take().expect("its input is ours");
        input.write_all(text.as_bytes()).expect("it reads the text");
        drop(input);
        let done = child.wait_with_output().expect("it ends");
        assert!(done.status.success(), "session-file refuses:\n{text}");
        done.stdout
    }

    #[test]
    fn the_text_makes_the_same_file() {
        for seed in 1..=12 {
            let session = generate::session(seed);
            let file = session.file().expect("a generated session has a file");
            assert_eq!(made_by_tool(&session_text(&session)), file, "seed {seed}");
            assert_eq!(Session::of_file(&file), Some(session));
        }
    }

    #[test]
    fn every_octet_can_be_written() {
        let every: Vec<u8> = (0..=255).chain([b'#'; 40]).chain([b'"'; 40]).collect();
        let session = Session {
            setup: Setup {
                client: [0; 16],
                mapped: MAPPED_ADDRESS,
                flags: 255,
                server: [0; 4],
            },
            calls: vec![
                Call::arrival(0, &every),
                Call::arrival(1, b""),
                Call::end(0),
            ],
        };
        let file = session.file().expect("it fits");
        assert_eq!(made_by_tool(&session_text(&session)), file);
    }

    #[test]
    fn rooms_and_unknown_directions_are_comments() {
        let rooms = Rooms {
            server: 5,
            client: 0,
        };
        let small = Call {
            rooms,
            ..Call::arrival(0, b"EPSV\r\n")
        };
        let session = Session {
            setup: Setup {
                client: CLIENT_ADDRESS,
                mapped: MAPPED_ADDRESS,
                flags: 9,
                server: SERVER_ADDRESS,
            },
            calls: vec![small, Call::end(7), Call::arrival(1, &[b'x'; 3000])],
        };
        let text = session_text(&session);
        let lines: Vec<&str> = text.lines().collect();
        let setup = "setup 2001:db8:2::31 192.0.2.31 198.51.100.7 epsv strict";
        assert_eq!(lines[0], setup);
        let said = "client \"EPSV\\r\\n\"  # room for 5 to the server, 0 to the client";
        assert_eq!(lines[1], said);
        assert_eq!(lines[2], "# direction 7 end");
        assert_eq!(lines[3], "cut 1024 server \"x\" * 3000");
        let full = session.with_full_rooms();
        assert_eq!(full.calls.len(), 4);
        assert_eq!(Some(made_by_tool(&text)), full.file());
    }
}
