//! Pseudo-random choices, and sessions made of them.

use crate::talk::{octets, CLIENT, SERVER};

/// The xorshift64* generator: the same choices on every run.
pub struct Random(u64);

impl Random {
    pub fn new(seed: u64) -> Random {
        Random(seed.wrapping_mul(0x9e37_79b9_7f4a_7c15) | 1)
    }

    fn next(&mut self) -> u64 {
        self.0 ^= self.0 >> 12;
        self.0 ^= self.0 << 25;
        self.0 ^= self.0 >> 27;
        self.0.wrapping_mul(0x2545_f491_4f6c_dd1d) >> 16
    }

    /// A number below `bound`.
    pub fn below(&mut self, bound: usize) -> usize {
        (self.next() % bound as u64) as usize
    }

    pub fn one_in(&mut self, bound: usize) -> bool {
        self.below(bound) == 0
    }

    pub fn pick<'list, T: ?Sized>(&mut self, list: &[&'list T]) -> &'list T {
        list[self.below(list.len())]
    }

    pub fn octet(&mut self) -> u8 {
        self.next() as u8
    }
}

/// An item of a session: octets of a direction, or its end.
#[derive(Clone, Debug)]
pub enum Item {
    Arrival(u8, Vec<u8>),
    End(u8),
}

const CLIENT_LINES: [&str; 24] = [
    "EPSV\r\n",
    "EPSV\n",
    "epsv 2\r\n",
    "EPSV 1\r\n",
    "EPSV 1\r\n",
    "EPSV ALL\r\n",
    "EPSV\r\r\n",
    "EPSV x\r\n",
    "EPRT |2|2001:db8:2::31|5282|\r\n",
    "EPRT |2|2001:db8:2:0::49|65535|\r\n",
    "EPRT |1|192.0.2.31|5282|\r\n",
    "ALGS STATUS64\r\n",
    "ALGS ENABLE64\r\n",
    "ALGS DISABLE64\r\n",
    "ALGS\r\n",
    "PASV\r\n",
    "NOOP\r\n",
    "\r\n",
    "\n",
    "EPS",
    "AU",
    "\r",
    "USER x\r\n",
    " \r\n",
];

const SERVER_LINES: [&str; 24] = [
    "220 hi\r\n",
    "220 hi\r\n",
    "200 ok\r\n",
    "200 ok\r\n",
    "227 x (192,0,2,31,237,19)\r\n",
    "227 x (198,51,100,7,237,19)\r\n",
    "227 198,051,100,007,0,5\n",
    "227 x (1,2,3,4,0,0)\r\n",
    "227-x\r\n",
    "220-x\r\n",
    "214-x\r\n",
    "214 x\r\n",
    "214\r\n",
    "150-x\r\n",
    "150 x\r\n",
    "500\r\n",
    "200\r\r\n",
    "hello\r\n",
    "\r\n",
    "22",
    "2",
    "\r",
    "331 x\n",
    "227 (1,2,3,4,5,6",
];

/// Telnet commands that are finished; a 255 may close a subnegotiation or double one before.
const COMMANDS: [&[u8]; 20] = [
    b"\xff\xff",
    b"\xff\xff",
    b"\xff\xff\xff\xff",
    b"\xff\xfb\x01",
    b"\xff\xfb\x03",
    b"\xff\xfb\n",
    b"\xff\xfb\xff",
    b"\xff\xfc\x01",
    b"\xff\xfd\x18",
    b"\xff\xfd\xf0",
    b"\xff\xfe\n",
    b"\xff\xfe\xff",
    b"\xff\xf1",
    b"\xff\n",
    b"\xff\xf0",
    b"\xff\xf4\xff\xf2",
    b"\xff\0",
    b"\xff\xfa\x18\x01\xff\xf0",
    b"\xff\xfa\n\xff\xff\xf0\xff\xfb\xff\xf0",
    b"\xff\xfa\xff\xfa\xff\xff\xff\xf0",
];

/// Telnet commands that what follows finishes.
const UNFINISHED: [&[u8]; 8] = [
    b"\xff",
    b"\xff\xfb",
    b"\xff\xfc",
    b"\xff\xfd",
    b"\xff\xfe",
    b"\xff\xfa",
    b"\xff\xfa\x18",
    b"\xff\xfa\x18\xff",
];

/// A session of `count` items with a few lines each; AUTH, long lines, odd octets, Telnet commands
/// and ends are rarer than the rest.
pub fn session(random: &mut Random, count: usize) -> Vec<Item> {
    (0..count).map(|_| item(random)).collect()
}

/// AUTH with nothing owed and the server inside a command.
pub fn auth_inside_a_command(random: &mut Random) -> Vec<Item> {
    let server = |said: &[u8]| Item::Arrival(SERVER, said.to_vec());
    vec![
        server(b"220 hi\r\n"),
        server(random.pick(&[&b""[..], b"2", b"\xff\xff", b"214-x\r\n"])),
        server(random.pick(&UNFINISHED)),
        Item::Arrival(CLIENT, b"AUTH TLS\r\n".to_vec()),
    ]
}

fn item(random: &mut Random) -> Item {
    let direction = if random.one_in(2) { CLIENT } else { SERVER };
    if random.one_in(40) {
        return Item::End(direction);
    }
    let mut said = Vec::new();
    for _ in 0..random.below(5) {
        said.extend(piece(random, direction));
    }
    Item::Arrival(direction, said)
}

/// A piece, at times with a Telnet command anywhere in it.
fn piece(random: &mut Random, direction: u8) -> Vec<u8> {
    let mut said = plain_piece(random, direction);
    while random.one_in(4) {
        let command = if random.one_in(8) {
            random.pick(&UNFINISHED)
        } else {
            random.pick(&COMMANDS)
        };
        let place = random.below(said.len() + 1);
        said.splice(place..place, command.iter().copied());
    }
    said
}

fn plain_piece(random: &mut Random, direction: u8) -> Vec<u8> {
    if random.one_in(20) {
        return long_line(random, direction);
    }
    if random.one_in(20) {
        return (0..random.below(8)).map(|_| random.octet()).collect();
    }
    if direction == CLIENT && random.one_in(30) {
        return octets(random.pick(&["AUTH TLS\r\n", "auth\n", "AUTH x"]));
    }
    if direction == CLIENT {
        octets(random.pick(&CLIENT_LINES))
    } else {
        octets(random.pick(&SERVER_LINES))
    }
}

/// Lines about the length that is still judged whole.
fn long_line(random: &mut Random, direction: u8) -> Vec<u8> {
    let start = if direction == CLIENT {
        random.pick(&["EPSV ", "ALGS ", "AUTH ", "auth ", "AUTHx", "NOOP "])
    } else {
        random.pick(&["200 ", "200-", "214 ", "227 1,2,3,4,5,6 ", "150 ", "hello"])
    };
    let filling = random.pick(&[" ", "x", "x", "\u{ff}\u{ff}"]);
    let length = 490 + random.below(30);
    octets(&format!("{start}{}\r\n", filling.repeat(length)))
}
