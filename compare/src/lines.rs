//! Lines that matter, by chance: commands with good, odd and bad arguments, replies in many
//! shapes, lengths around those that the rules name.

use std::net::Ipv6Addr;

use crate::random::Random;
use crate::session::PASSIVE_ADDRESS;

/// What a line may end with beside CR LF; a CR alone leaves it unfinished.
const ENDINGS: [&[u8]; 10] = [
    b"\n", b"\n", b"\n", b"\n", b"\r\r\n", b" \r\n", b"\t\r\n", b"\0\r\n", b"\r", b"\n\r",
];
const EPSV_ARGUMENTS: [&[u8]; 26] = [
    b"",
    b"",
    b"",
    b"",
    b" ",
    b" 2",
    b" 2",
    b" 02",
    b"   2  ",
    b" 1",
    b" 1",
    b" 3",
    b" 0",
    b" 20",
    b" ALL",
    b"  all ",
    b" ALL x",
    b" ALLX",
    b" 2 2",
    b" x",
    b"\t2",
    b"X",
    b" 2a",
    b" -2",
    b" 4294967298",
    b" 18446744073709551618",
];
const ALGS_ARGUMENTS: [&[u8]; 12] = [
    b" STATUS64",
    b" STATUS64",
    b" ENABLE64",
    b" ENABLE64",
    b" DISABLE64",
    b"  status64  ",
    b"",
    b" ",
    b" STATUS64 x",
    b" STATUS6",
    b"X STATUS64",
    b"\tSTATUS64",
];
const AUTH_LINES: [&[u8]; 8] = [
    b"AUTH TLS",
    b"AUTH TLS",
    b"AUTH",
    b"AUTH ",
    b"AUTH SSL ",
    b"AUTHX",
    b" AUTH TLS",
    b"AUTH\tTLS",
];
const OTHER_COMMANDS: [&[u8]; 16] = [
    b"NOOP",
    b"NOOP",
    b"USER anonymous",
    b"PASS x",
    b"PASV",
    b"PASV",
    b"PORT 192,0,2,31,20,162",
    b"QUIT",
    b"",
    b" ",
    b" EPSV",
    b"EPS",
    b"\xff\xf4\xff\xf2ABOR",
    b"\xc5PSV",
    b"\0",
    b"LANG en",
];
const DELIMITERS: [u8; 12] = *b"||||!,.2:a~/";
const PROTOCOLS: [&[u8]; 8] = [b"2", b"2", b"2", b"2", b"2", b"1", b"02", b""];
const PORTS: [&[u8]; 14] = [
    b"5282", b"5282", b"21", b"1", b"256", b"65535", b"00021", b"0", b"65536", b"000021", b"",
    b"99999", b"-1", b"21x",
];
/// What may follow the fourth delimiter.
const EPRT_TAILS: [&[u8]; 8] = [b"", b"", b"", b"", b"", b"  ", b"x", b"|"];

const FINAL_REPLIES: [&[u8]; 14] = [
    b"200 ok",
    b"200 ok",
    b"226 done",
    b"230 in",
    b"331 who",
    b"421 bye",
    b"500 no",
    b"502 no",
    b"550 no",
    b"220 hi",
    b"257 \"/\"",
    b"215 UNIX",
    b"200",
    b"530 ",
];
const ODD_REPLIES: [&[u8]; 14] = [
    b"150 wait",
    b"125 wait",
    b"120",
    b"100-wait",
    b"150-wait",
    b"214-help",
    b"220-multi",
    b"211-status",
    b"227-x (1,2,3,4,5,6)",
    b"234 go",
    b"334 more",
    b"229 x (|||5|)",
    b"214 end",
    b"211 end",
];
/// Neither a whole reply nor the first line of one: outside a reply each stands alone.
const OF_NO_FORM: [&[u8]; 13] = [
    b"hello",
    b"",
    b" 220 x",
    b"220x",
    b"2200 x",
    b"620 x",
    b"620-x",
    b"099-y",
    b"22",
    b"600",
    b"2a0 x",
    b"\t220 x",
    b"\xff220 x",
];
const OPENING_CODES: [[u8; 3]; 10] = [
    *b"214", *b"214", *b"214", *b"211", *b"220", *b"150", *b"150", *b"120", *b"227", *b"500",
];
/// What may stand inside a reply beside its own code; a line of that code and a space ends it.
const INSIDE: [&[u8]; 12] = [
    b"220 bar is the rated pressure",
    b"220 bar",
    b"220-x",
    b"214-x",
    b"227 (1,2,3,4,5,6)",
    b"227 (1,2,3,4,5,6)",
    b"200",
    b"150 wait",
    b"600 x",
    b" 214 x",
    b"hello",
    b"",
];
const AUTH_REPLIES: [&[u8]; 8] = [
    b"234 go",
    b"234 go",
    b"334 more",
    b"500 no",
    b"534 no",
    b"421 bye",
    b"234-go",
    b"150 wait",
];
/// What stands between the code and the first number.
const PASSIVE_STARTS: [&[u8]; 9] = [
    b" Entering Passive Mode (",
    b" Entering Passive Mode (",
    b" =",
    b" ",
    b" x(",
    b" (",
    b" 4 (",
    b"\t",
    b"",
];
const PASSIVE_TAILS: [&[u8]; 9] = [b")", b")", b").", b"", b" x", b",7", b"7", b"x", b"\0"];
const PASSIVE_NUMBERS: [&[u8]; 9] = [
    b"256", b"0255", b"1000", b"", b"x", b"001", b"0", b" 1", b"255",
];

pub fn line_end(random: &mut Random) -> &'static [u8] {
    if random.percent(70) {
        b"\r\n"
    } else {
        random.pick(&ENDINGS)
    }
}

/// Letters in either case.
fn in_any_case(random: &mut Random, text: &[u8]) -> Vec<u8> {
    let mix = random.percent(30);
    let mut flip = |octet: u8| mix && octet.is_ascii_alphabetic() && random.percent(50);
    text.iter()
        .map(|&octet| if flip(octet) { octet ^ 32 } else { octet })
        .collect()
}

fn garbage(random: &mut Random) -> Vec<u8> {
    let length = random.between(1, 30);
    (0..length).map(|_| random.octet()).collect()
}

/// A client's line without its end.
pub fn command(random: &mut Random, client: [u8; 16]) -> Vec<u8> {
    match random.below(20) {
        0..=6 => epsv(random),
        7..=11 => eprt(random, client),
        12..=14 => algs(random),
        15..=18 => in_any_case_of(random, &OTHER_COMMANDS),
        _ => garbage(random),
    }
}

fn in_any_case_of(random: &mut Random, texts: &[&[u8]]) -> Vec<u8> {
    let text = random.pick(texts);
    in_any_case(random, text)
}

pub fn epsv(random: &mut Random) -> Vec<u8> {
    if random.percent(4) {
        let zeros = vec![b'0'; random.between(1, 503)];
        return [&b"EPSV "[..], &zeros, random.pick(&[&b"2"[..], b"1", b""])].concat();
    }
    let argument = random.pick(&EPSV_ARGUMENTS);
    in_any_case(random, &[b"EPSV", argument].concat())
}

pub fn algs(random: &mut Random) -> Vec<u8> {
    let argument = random.pick(&ALGS_ARGUMENTS);
    in_any_case(random, &[b"ALGS", argument].concat())
}

pub fn auth(random: &mut Random) -> Vec<u8> {
    in_any_case_of(random, &AUTH_LINES)
}

/// Good in every part at first; then, for about half of them, one part by chance.
pub fn eprt(random: &mut Random, client: [u8; 16]) -> Vec<u8> {
    let mut delimiter = b'|';
    let mut protocol = &b"2"[..];
    let mut address = good_address(random, client);
    let mut port = &b"5282"[..];
    let mut tail = &b""[..];
    match random.below(10) {
        0 => delimiter = random.pick(&DELIMITERS),
        1 => protocol = random.pick(&PROTOCOLS),
        2 | 3 => address = odd_address(random, client),
        4 | 5 => port = random.pick(&PORTS),
        6 => tail = random.pick(&EPRT_TAILS),
        _ => {}
    }
    let mut line = in_any_case(random, b"EPRT ");
    for field in [protocol, &address, port] {
        line.push(delimiter);
        line.extend(field);
    }
    line.push(delimiter);
    line.extend(tail);
    line
}

/// Groups in hexadecimal, each of at least `width` digits.
fn groups_text(groups: &[u16], width: usize) -> String {
    let texts: Vec<String> = groups.iter().map(|g| format!("{g:0width$x}")).collect();
    texts.join(":")
}

/// The client's address in one of the shapes that IPv6 text has.
fn good_address(random: &mut Random, client: [u8; 16]) -> Vec<u8> {
    let address = Ipv6Addr::from(client);
    let groups = address.segments();
    let [.., a, b, c, d] = client;
    let text = match random.below(6) {
        0 => groups_text(&groups, 1),
        1 => groups_text(&groups, 4).to_uppercase(),
        2 => format!("{}:{a}.{b}.{c}.{d}", groups_text(&groups[..6], 1)),
        3 => {
            let front = groups_text(&groups[..6], 3);
            format!("{front}:{a:03}.{b:03}.{c:03}.{d:03}")
        }
        _ => address.to_string(),
    };
    text.into_bytes()
}

/// Dotted numbers in front, where they may not stand; the value would be the client's address if
/// its third group is zero.
fn dotted_in_front(client: [u8; 16]) -> Vec<u8> {
    let [a, b, c, d, ..] = client;
    let rest = groups_text(&Ipv6Addr::from(client).segments()[3..], 1);
    format!("{a}.{b}.{c}.{d}::{rest}").into_bytes()
}

/// Something wrong with an address, or another one.
fn odd_address(random: &mut Random, client: [u8; 16]) -> Vec<u8> {
    let mut text = good_address(random, client);
    match random.below(10) {
        0 => text.extend(b"%1"),
        1 => text.extend(b"/64"),
        2 => text = b"2001:db8:2::32".to_vec(),
        3 => text = b"192.0.2.31".to_vec(),
        4 => text.extend(b":"),
        5 => text.extend(b"::"),
        6 => text.insert(0, b':'),
        7 => text.insert(0, b'0'),
        8 => text = dotted_in_front(client),
        _ => {
            let place = random.below(text.len());
            text[place] = random.pick(b":.0fFgx1 ");
        }
    }
    text
}

/// A server's line without its end.
pub fn reply(random: &mut Random) -> Vec<u8> {
    match random.below(10) {
        0..=3 => random.pick(&FINAL_REPLIES).to_vec(),
        4 | 5 => random.pick(&ODD_REPLIES).to_vec(),
        6 => of_no_form(random),
        7 | 8 => passive(random, PASSIVE_ADDRESS),
        _ => garbage(random),
    }
}

pub fn of_no_form(random: &mut Random) -> Vec<u8> {
    random.pick(&OF_NO_FORM).to_vec()
}

pub fn final_reply(random: &mut Random) -> Vec<u8> {
    random.pick(&FINAL_REPLIES).to_vec()
}

pub fn auth_reply(random: &mut Random) -> Vec<u8> {
    random.pick(&AUTH_REPLIES).to_vec()
}

/// A 227 as servers write it, most of the time, with the server's address or a foreign one.
pub fn passive(random: &mut Random, server: [u8; 4]) -> Vec<u8> {
    let mut start = PASSIVE_STARTS[0];
    let mut tail = PASSIVE_TAILS[0];
    let [a, b, c, d] = passive_address(random, server);
    // Leading zeros change no value.
    let width = random.pick(&[1, 1, 1, 2, 3]);
    let numbers = [a, b, c, d, random.octet(), random.octet()];
    let numbers = numbers.map(|number| format!("{number:0width$}"));
    let mut numbers: Vec<&[u8]> = numbers.iter().map(|number| number.as_bytes()).collect();
    let mut between = &b","[..];
    match random.below(12) {
        0 | 1 => start = random.pick(&PASSIVE_STARTS),
        2 => tail = random.pick(&PASSIVE_TAILS),
        3 => numbers[random.below(6)] = random.pick(&PASSIVE_NUMBERS),
        4 => between = random.pick(&[&b",,"[..], b", ", b".", b""]),
        5 => numbers.truncate(random.between(1, 5)),
        6 => (numbers[4], numbers[5]) = (b"0", random.pick(&[&b"0"[..], b"1", b"000"])),
        _ => {}
    }
    [b"227", start, &numbers.join(between), tail].concat()
}

/// The server's, more often than not, one that differs from it in an octet, or the usual one.
fn passive_address(random: &mut Random, server: [u8; 4]) -> [u8; 4] {
    let mut address = server;
    match random.below(10) {
        0..=2 => address[random.below(4)] ^= 1 << random.below(8),
        3 => address.reverse(),
        4 => address = PASSIVE_ADDRESS,
        _ => {}
    }
    address
}

pub fn opening_code(random: &mut Random) -> [u8; 3] {
    random.pick(&OPENING_CODES)
}

/// The first line of a reply, with its end.
pub fn opener(random: &mut Random, code: [u8; 3]) -> Vec<u8> {
    let line = [&code[..], random.pick(&[&b"-"[..], b"-x", b"- x"])].concat();
    of_either_length(random, &line)
}

/// A line that belongs to a reply, most of the time, with its end.
pub fn inside(random: &mut Random, code: [u8; 3]) -> Vec<u8> {
    let line = match random.below(8) {
        0 | 1 => code.to_vec(),
        2 => [&code[..], b"-again"].concat(),
        3 => passive(random, PASSIVE_ADDRESS),
        _ => random.pick(&INSIDE).to_vec(),
    };
    of_either_length(random, &line)
}

/// The line that ends a reply, with its end.
pub fn ender(random: &mut Random, code: [u8; 3]) -> Vec<u8> {
    let rest = random.pick(&[&b" "[..], b" end", b" (1,2,3,4,5,6)"]);
    let line = [&code[..], rest].concat();
    of_either_length(random, &line)
}

/// Short, or now and then so long that it flows.
fn of_either_length(random: &mut Random, start: &[u8]) -> Vec<u8> {
    if random.percent(20) {
        return flowing(random, start);
    }
    [start, line_end(random)].concat()
}

/// A reply of several lines, each with its end. The last one may be missing, and where its code
/// isn't the first one's it belongs to a reply that goes on.
pub fn long_reply(random: &mut Random, last: &[u8]) -> Vec<u8> {
    let code = last.first_chunk().copied().unwrap_or(*b"211");
    let code = if random.percent(80) { code } else { *b"211" };
    let mut lines = opener(random, code);
    for _ in 0..random.below(3) {
        lines.extend(inside(random, code));
    }
    if random.percent(90) {
        lines.extend(last);
        lines.extend(line_end(random));
    }
    lines
}

/// The code of the reply that a server's text leaves unfinished.
pub fn unfinished(text: &[u8]) -> Option<[u8; 3]> {
    let lines = text.split(|&octet| octet == b'\n');
    lines.fold(None, |open, line| match (open, line) {
        (None, &[a @ b'1'..=b'5', b @ b'0'..=b'9', c @ b'0'..=b'9', b'-', ..]) => Some([a, b, c]),
        (Some(code), &[a, b, c, b' ', ..]) if code == [a, b, c] => None,
        _ => open,
    })
}

/// A line over 512 octets, by little or by much.
pub fn flowing(random: &mut Random, start: &[u8]) -> Vec<u8> {
    let length = match random.below(4) {
        0 => random.between(521, 1500),
        _ => random.between(513, 520),
    };
    let end = random.pick(&[&b"\r\n"[..], b"\n"]);
    let mut line = start.to_vec();
    line.resize(length - end.len(), random.pick(b"   x"));
    line.extend(end);
    line
}

/// A line filled up to a length around 512, or well beyond.
pub fn filled(random: &mut Random, start: &[u8]) -> Vec<u8> {
    let length = match random.below(8) {
        0 => random.between(600, 1500),
        1 => random.between(480, 505),
        _ => random.between(509, 514),
    };
    let end = random.pick(&[&b"\r\n"[..], b"\r\n", b"\n", b""]);
    let filler = random.pick(b"   x");
    let mut line = start.to_vec();
    line.resize(length.saturating_sub(end.len()).max(start.len()), filler);
    line.extend(end);
    line
}

#[cfg(test)]
mod tests {
    use super::*;
    use crate::session::SERVER_ADDRESS;
    use reference::made::MadeLine;
    use reference::replies::extended_passive;

    /// The 227s that have an address, whatever zeros stand before its numbers.
    fn of_address(lines: &[Vec<u8>], address: [u8; 4]) -> Vec<&Vec<u8>> {
        let made = |line: &[u8]| extended_passive(line, Some(address));
        let has = |line: &&Vec<u8>| matches!(made(line), Some(MadeLine::ExtendedPassive(_)));
        lines.iter().filter(has).collect()
    }

    /// Own addresses with and without zeros, and foreign ones by each bit alone.
    #[test]
    fn passive_addresses_come_near() {
        let mut random = Random::new(1);
        let lines = (0..4000).map(|_| passive(&mut random, SERVER_ADDRESS));
        let lines: Vec<Vec<u8>> = lines.collect();
        let own = of_address(&lines, SERVER_ADDRESS);
        let zeros = |line: &&&Vec<u8>| line.windows(5).any(|part| part == b",051,");
        let zeros = own.iter().filter(zeros).count();
        assert!(zeros >= 100 && own.len() - zeros >= 100, "{zeros}");
        for bit in 0..32 {
            let mut address = SERVER_ADDRESS;
            address[bit / 8] ^= 1 << (bit % 8);
            assert!(of_address(&lines, address).len() >= 5, "bit {bit}");
        }
        for address in [PASSIVE_ADDRESS, [7, 100, 51, 198]] {
            assert!(of_address(&lines, address).len() >= 50, "{address:?}");
        }
    }
}
