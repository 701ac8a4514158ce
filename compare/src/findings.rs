//! A difference as it is shown: the smallest that still differs, and what each gateway did.

use crate::gateways::{difference, Gateway};
use crate::replay::Replay;
use crate::session::Session;
use crate::shrink::smallest;
use crate::text::session_text;

/// A session through the static library. `name` says where it comes from.
pub fn of_calls<A: Gateway, B: Gateway>(name: &str, found: Session) -> String {
    let differs = |session: &Session| difference::<A, B>(session).is_some();
    let small = smallest(found, differs);
    let mut text = format!(
        "{name}: the gateways differ on\n\n{}",
        of_session::<A, B>(&small)
    );
    if small.file().is_none() {
        text += &with_full_rooms::<A, B>(&small);
    }
    text
}

fn of_session<A: Gateway, B: Gateway>(session: &Session) -> String {
    let text = session_text(session);
    let Some(difference) = difference::<A, B>(session) else {
        return text;
    };
    let place = match difference.call {
        0 => "in the setup".to_string(),
        call => format!("in call {call}"),
    };
    let (ours, theirs) = (difference.ours.text(), difference.theirs.text());
    format!("{text}\n{place}, ours:\n{ours}  the reference:\n{theirs}")
}

/// A list with small rooms is no session file. The same calls with full rooms are one, if they
/// differ too.
fn with_full_rooms<A: Gateway, B: Gateway>(small: &Session) -> String {
    let full = small.with_full_rooms();
    let differs =
        |session: &Session| session.file().is_some() && difference::<A, B>(session).is_some();
    if !differs(&full) {
        return "\nwith full rooms, as a replay has them, they do not differ on it\n".to_string();
    }
    let full = smallest(full, differs);
    format!(
        "\nwith full rooms they differ too, on\n\n{}",
        of_session::<A, B>(&full)
    )
}

/// A file through the program `replay`.
pub fn of_file(name: &str, replay: &Replay, found: &[u8]) -> String {
    let differs = |file: &Vec<u8>| matches!(replay.difference(file), Ok(Some(_)));
    let small = match Session::of_file(found) {
        Some(session) => {
            let differs = |session: &Session| session.file().is_some_and(|file| differs(&file));
            smallest(session, differs).file().unwrap_or_default()
        }
        None => smallest(found.to_vec(), differs),
    };
    let shown = match Session::of_file(&small) {
        Some(session) => session_text(&session),
        None => format!(
            "(no session file, in hexadecimal)\n{}\n",
            hexadecimal(&small)
        ),
    };
    let ours = replay.of_octets(&small).unwrap_or_default();
    let ours = String::from_utf8_lossy(&ours);
    let theirs = reference::files::report(&small);
    format!("{name}: the reports differ on\n\n{shown}\nours:\n{ours}\nthe reference:\n{theirs}")
}

fn hexadecimal(octets: &[u8]) -> String {
    octets.iter().map(|octet| format!("{octet:02x}")).collect()
}
