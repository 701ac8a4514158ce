//! Session files, and the report that a replay writes on one.

use crate::gateway::{Gateway, Outcome, CLIENT, DONE, SERVER};

/// "File length not what the table says, table cut."
const WRONG_LENGTH: u8 = 7;
/// "Count, kind, order, zero octet or length wrong."
const WRONG_TABLE: u8 = 8;

const MOST_ENTRIES: usize = 48;
const LONGEST_BODY: usize = 1024;
const SETUP_LENGTH: usize = 25;

/// "The replay uses 16,384 octets for each out buffer, emptied per entry."
const ROOM: usize = 16384;

#[derive(Clone, Copy, PartialEq, Eq)]
enum Kind {
    Arrival(u8),
    End(u8),
    Setup,
}

struct Entry<'file> {
    kind: Kind,
    body: &'file [u8],
}

/// The whole report on a session file, a refused one included.
pub fn report(file: &[u8]) -> String {
    match read(file) {
        Ok(entries) => replay(&entries),
        Err(number) => format!("REFUSED {number}\n"),
    }
}

/// "Order: two octets present, count, table present, entries, total."
fn read(file: &[u8]) -> Result<Vec<Entry<'_>>, u8> {
    let (count, rest) = file.split_first_chunk().ok_or(WRONG_LENGTH)?;
    let count = usize::from(u16::from_be_bytes(*count));
    if !(1..=MOST_ENTRIES).contains(&count) {
        return Err(WRONG_TABLE);
    }
    let (table, bodies) = rest.split_at_checked(4 * count).ok_or(WRONG_LENGTH)?;
    let table = read_table(table).ok_or(WRONG_TABLE)?;
    cut_bodies(&table, bodies).ok_or(WRONG_LENGTH)
}

/// Kind and length of each entry. The setup is the "first entry and only there".
fn read_table(table: &[u8]) -> Option<Vec<(Kind, usize)>> {
    let entries = table.chunks_exact(4).map(read_entry);
    let entries: Vec<(Kind, usize)> = entries.collect::<Option<_>>()?;
    let in_order = entries
        .iter()
        .enumerate()
        .all(|(index, (kind, _))| (*kind == Kind::Setup) == (index == 0));
    in_order.then_some(entries)
}

/// "Per entry four octets: kind, zero, length (high first)."
fn read_entry(entry: &[u8]) -> Option<(Kind, usize)> {
    let &[kind, 0, high, low] = entry else {
        return None;
    };
    let length = usize::from(u16::from_be_bytes([high, low]));
    let (kind, lengths) = match kind {
        0 => (Kind::Arrival(CLIENT), 0..=LONGEST_BODY),
        1 => (Kind::Arrival(SERVER), 0..=LONGEST_BODY),
        2 => (Kind::End(CLIENT), 0..=0),
        3 => (Kind::End(SERVER), 0..=0),
        4 => (Kind::Setup, SETUP_LENGTH..=SETUP_LENGTH),
        _ => return None,
    };
    lengths.contains(&length).then_some((kind, length))
}

/// "Bodies follow without gaps", and nothing follows them.
fn cut_bodies<'file>(table: &[(Kind, usize)], bodies: &'file [u8]) -> Option<Vec<Entry<'file>>> {
    let mut entries = Vec::new();
    let mut rest = bodies;
    for &(kind, length) in table {
        let (body, after) = rest.split_at_checked(length)?;
        entries.push(Entry { kind, body });
        rest = after;
    }
    rest.is_empty().then_some(entries)
}

/// The first entry is the setup, so the gateway is there for all others.
fn replay(entries: &[Entry]) -> String {
    let mut report = format!("FTP64 REPORT {}\n", entries.len());
    let (mut gateway, setup_answer) = setup(entries[0].body);
    let (mut to_server, mut to_client) = ([0; ROOM], [0; ROOM]);
    for (number, entry) in entries.iter().enumerate() {
        let outcome = match entry.kind {
            Kind::Setup => Outcome::answered(setup_answer),
            Kind::Arrival(direction) => {
                gateway.arrive(direction, entry.body, &mut to_server, &mut to_client)
            }
            Kind::End(direction) => gateway.end(direction, &mut to_server, &mut to_client),
        };
        report += &entry_line(number, &outcome, &to_server, &to_client);
        if outcome.answer != DONE {
            report += "STOPPED\n";
            break;
        }
    }
    report
}

/// A setup's 25 octets: the client's address, its mapped address, the flags, the server's address.
fn setup(body: &[u8]) -> (Gateway, u8) {
    let mut client = [0; 16];
    let mut mapped = [0; 4];
    let mut server = [0; 4];
    client.copy_from_slice(&body[..16]);
    mapped.copy_from_slice(&body[16..20]);
    server.copy_from_slice(&body[21..]);
    Gateway::setup(client, mapped, body[20], server)
}

/// "Number, taken (0 for setup and ends), answer, octets to the server, octets to the client."
fn entry_line(number: usize, outcome: &Outcome, to_server: &[u8], to_client: &[u8]) -> String {
    let Outcome { answer, taken, .. } = outcome;
    let to_server = escaped(&to_server[..outcome.to_server]);
    let to_client = escaped(&to_client[..outcome.to_client]);
    format!("{number} {taken} {answer} {to_server} {to_client}\n")
}

/// "Empty is `-`. Octets 33 to 126 but `-` and `\` stand as themselves, others as `\` and two
/// lower-case hex digits."
fn escaped(octets: &[u8]) -> String {
    if octets.is_empty() {
        return "-".to_string();
    }
    octets.iter().copied().map(escape).collect()
}

fn escape(octet: u8) -> String {
    match octet {
        b'-' | b'\\' => format!("\\{octet:02x}"),
        33..=126 => char::from(octet).to_string(),
        _ => format!("\\{octet:02x}"),
    }
}
