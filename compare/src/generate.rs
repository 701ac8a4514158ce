//! Sessions and lists of calls by seed.

use crate::gateways::{Gateway, Reference};
use crate::lines;
use crate::random::Random;
use crate::session::{
    Call, Rooms, Session, Setup, What, CLIENT_ADDRESS, FULL_ROOM, LONGEST_BODY, MAPPED_ADDRESS,
    MOST_ENTRIES, PASSIVE_ADDRESS, SERVER_ADDRESS, STRICT,
};
use crate::telnet;

const CLIENT: u8 = 0;
const SERVER: u8 = 1;

/// Everything on, most of the time.
const FLAGS: [u8; 11] = [7, 7, 7, 7, 7, 7, 1, 3, 6, 2, 0];
const ROOMS: [usize; 22] = [
    0, 0, 1, 2, 5, 6, 10, 32, 33, 40, 48, 100, 511, 512, 513, 600, 1279, 1280, 1281, 4096,
    FULL_ROOM, FULL_ROOM,
];
/// About the octets of answers and commands, and the most that an octet or an end writes.
const TELNET_ROOMS: [usize; 24] = [
    0, 0, 1, 2, 3, 4, 5, 6, 10, 48, 100, 511, 512, 513, 514, 1022, 1023, 1024, 1786, 1787, 1790,
    1791, FULL_ROOM, FULL_ROOM,
];

/// Ends that wait for the octets of a command, or for held ones that leave doubled.
const END_ROOMS: [usize; 8] = [0, 0, 1, 1, 2, 3, 513, 1023];

/// A session that a session file can hold: full rooms, at most 48 entries.
pub fn session(seed: u64) -> Session {
    session_of(seed, holds_telnet(seed))
}

/// A list of calls with small rooms, unknown directions and calls after ends. Some that stop are
/// called again with the rest, as a host does.
pub fn list(seed: u64) -> Session {
    list_of(seed, holds_telnet(seed))
}

/// Every other session holds Telnet material, and not only a stray 255 here and there.
fn holds_telnet(seed: u64) -> bool {
    seed % 2 == 1
}

/// One in eight begins with a foreign 227, with Telnet material and without.
fn is_foreign(seed: u64) -> bool {
    seed / 2 % 8 == 3
}

fn session_of(seed: u64, telnet: bool) -> Session {
    let mut random = Random::new(seed);
    let setup = setup(&mut random, 2);
    let mut talk = Talk::of(&mut random, setup, telnet);
    if is_foreign(seed) {
        talk.begins_foreign(&mut random);
    }
    let mut calls = cut(&mut random, LONGEST_BODY, talk.calls);
    calls.truncate(MOST_ENTRIES - 1);
    Session { setup, calls }
}

fn list_of(seed: u64, telnet: bool) -> Session {
    let mut random = Random::new(!seed);
    let setup = setup(&mut random, 8);
    let mut talk = Talk::of(&mut random, setup, telnet);
    if is_foreign(seed) {
        talk.begins_foreign(&mut random);
    }
    if random.percent(5) {
        talk.longest_line(&mut random);
    }
    let mut calls = cut(&mut random, usize::MAX, talk.calls);
    let small = random.percent(80);
    for call in &mut calls {
        if small && random.percent(40) {
            call.rooms = rooms(&mut random, telnet);
        }
        if telnet && call.what == What::End && random.percent(75) {
            let room = random.pick(&END_ROOMS);
            call.rooms = Rooms {
                server: room,
                client: room,
            };
        }
        if random.percent(2) {
            call.direction = random.pick(&[2, 3, 128, 255]);
        }
    }
    let calls = with_rests(&mut random, setup, calls, telnet);
    Session { setup, calls }
}

/// `wrong` of a hundred setups have any flags at all, half of the others are strict.
fn setup(random: &mut Random, wrong: usize) -> Setup {
    let mut client = CLIENT_ADDRESS;
    if random.percent(30) {
        client = [0; 16];
        for _ in 0..random.between(0, 16) {
            client[random.below(16)] = random.octet();
        }
    }
    let flags = if random.percent(wrong) {
        random.octet()
    } else if random.percent(50) {
        random.pick(&FLAGS) | STRICT
    } else {
        random.pick(&FLAGS)
    };
    let mapped = if random.percent(30) {
        [0; 4].map(|_: u8| random.octet())
    } else {
        MAPPED_ADDRESS
    };
    // Half of them are those of the 227s that every session may have.
    let server = match random.below(10) {
        0..=4 => PASSIVE_ADDRESS,
        5..=7 => SERVER_ADDRESS,
        _ => [0; 4].map(|_: u8| random.octet()),
    };
    Setup {
        client,
        mapped,
        flags,
        server,
    }
}

fn rooms(random: &mut Random, telnet: bool) -> Rooms {
    let rooms = if telnet { &TELNET_ROOMS[..] } else { &ROOMS };
    Rooms {
        server: random.pick(rooms),
        client: random.pick(rooms),
    }
}

/// Two that talk to each other, line by line; not always to the point.
struct Talk {
    client: [u8; 16],
    server: [u8; 4],
    calls: Vec<Call>,
    /// All that the server has said.
    said: Vec<u8>,
    telnet: bool,
}

impl Talk {
    fn of(random: &mut Random, setup: Setup, telnet: bool) -> Talk {
        let mut talk = Talk {
            client: setup.client,
            server: setup.server,
            calls: Vec::new(),
            said: Vec::new(),
            telnet,
        };
        for _ in 0..random.between(2, 11) {
            talk.step(random);
        }
        if telnet {
            telnet::sprinkle(random, &mut talk.calls);
        }
        talk
    }

    fn says(&mut self, direction: u8, octets: &[u8]) {
        self.calls.push(Call::arrival(direction, octets));
        if direction == SERVER {
            self.said.extend(octets);
        }
    }

    fn says_line(&mut self, random: &mut Random, direction: u8, content: &[u8]) {
        let line = [content, lines::line_end(random)].concat();
        self.says(direction, &line);
    }

    fn step(&mut self, random: &mut Random) {
        if self.calls.is_empty() && random.percent(85) {
            self.greeting(random);
        }
        if random.percent(60) {
            self.end_reply(random);
        }
        if self.telnet && random.percent(40) {
            return self.telnet_step(random);
        }
        match random.below(100) {
            0..=17 => self.exchange(random),
            18..=38 => self.passive_exchange(random),
            39..=42 => self.one_sided(random),
            43..=48 => self.own_answer(random),
            49..=55 => self.many_commands(random),
            56..=62 => self.auth(random),
            63..=71 => self.long_line(random),
            72..=82 => self.several_lines(random),
            83..=88 => self.line_of_no_form(random),
            89..=91 => self.many_replies(random),
            92..=96 => self.ends(random),
            _ => self.says(random.below(2) as u8, b""),
        }
    }

    /// Ends the reply that is unfinished, so that what follows stands outside it.
    fn end_reply(&mut self, random: &mut Random) {
        if let Some(code) = lines::unfinished(&self.said) {
            let line = lines::ender(random, code);
            self.says(SERVER, &line);
        }
    }

    fn greeting(&mut self, random: &mut Random) {
        match random.below(10) {
            0 => {
                let reply = lines::long_reply(random, b"220 hi");
                self.says(SERVER, &reply);
            }
            1 => {
                let reply = lines::reply(random);
                self.says_line(random, SERVER, &reply);
            }
            _ => self.says(SERVER, b"220 hi\r\n"),
        }
    }

    fn exchange(&mut self, random: &mut Random) {
        let command = lines::command(random, self.client);
        self.says_line(random, CLIENT, &command);
        let reply = lines::final_reply(random);
        self.says_line(random, SERVER, &reply);
    }

    /// EPSV and the server's answer to PASV; now and then PASV of the client's own.
    fn passive_exchange(&mut self, random: &mut Random) {
        let command = match random.below(10) {
            0 => b"PASV".to_vec(),
            1..=4 => lines::epsv(random),
            _ => b"EPSV".to_vec(),
        };
        self.says_line(random, CLIENT, &command);
        let passive = lines::passive(random, self.server);
        match random.below(20) {
            0 | 1 => {
                let reply = lines::long_reply(random, &passive);
                self.says(SERVER, &reply);
            }
            2 => {
                self.says(SERVER, b"150 wait\r\n");
                self.says_line(random, SERVER, &passive);
            }
            3..=5 => {
                self.says(SERVER, b"150-x\r\n227 x\r\n150 wait\r\n");
                self.says_line(random, SERVER, &passive);
            }
            6 => {
                let line = lines::filled(random, &passive);
                self.says(SERVER, &line);
            }
            7 => self.says_line(random, SERVER, b"500 no"),
            8 => {
                self.says(SERVER, b"214-x\r\n");
                self.says_line(random, SERVER, &passive);
                self.says(SERVER, b"214 x\r\n");
                self.says_line(random, SERVER, &passive);
            }
            9 | 10 => {
                let line = lines::of_no_form(random);
                self.says_line(random, SERVER, &line);
                self.says_line(random, SERVER, &passive);
            }
            _ => self.says_line(random, SERVER, &passive),
        }
    }

    /// Puts before all that is said a 227 of another machine that passes in a strict session too.
    fn begins_foreign(&mut self, random: &mut Random) {
        let [a, b, c, d] = self.server.map(|octet| octet ^ 1);
        let low = random.between(1, 255);
        let mut command = &b"EPSV\r\n"[..];
        let mut passive = format!("227 x ({a},{b},{c},{d},0,{low})").into_bytes();
        match random.below(4) {
            0 => passive = format!("227 x ({a},{b},{c},{d},0,0)").into_bytes(),
            1 => command = b"PASV\r\n",
            2 => passive = lines::flowing(random, &passive),
            _ => passive = [b"214-x\r\n", &passive[..], b"\r\n214 y"].concat(),
        }
        if !passive.ends_with(b"\n") {
            passive.extend(lines::line_end(random));
        }
        let first = [
            (SERVER, &b"220 hi\r\n"[..]),
            (CLIENT, command),
            (SERVER, &passive),
        ];
        let first = first.map(|(side, octets)| Call::arrival(side, octets));
        self.calls.splice(..0, first);
    }

    /// A reply from its opening code to the same code and a space, with what arrives inside it.
    fn several_lines(&mut self, random: &mut Random) {
        if random.percent(50) {
            self.says(CLIENT, random.pick(&[&b"NOOP\r\n"[..], b"EPSV\r\n"]));
        }
        let code = lines::opening_code(random);
        let line = lines::opener(random, code);
        self.says(SERVER, &line);
        for _ in 0..random.below(5) {
            if random.percent(25) {
                let command = random.pick(&[&b"ALGS STATUS64\r\n"[..], b"EPSV 1\r\n", b"EPSV\r\n"]);
                self.says(CLIENT, command);
            } else {
                let line = lines::inside(random, code);
                self.says(SERVER, &line);
            }
        }
        match random.below(12) {
            0 => {}
            1 => self.calls.push(Call::end(SERVER)),
            2 => self.auth(random),
            _ => self.end_reply(random),
        }
    }

    /// A line that stands alone, and what it must not keep back, spoil or be counted for.
    fn line_of_no_form(&mut self, random: &mut Random) {
        if random.percent(40) {
            self.says(CLIENT, random.pick(&[&b"NOOP\r\n"[..], b"EPSV\r\n"]));
        }
        for _ in 0..random.between(1, 3) {
            let line = lines::of_no_form(random);
            if random.percent(15) {
                let line = lines::flowing(random, &line);
                self.says(SERVER, &line);
            } else {
                self.says_line(random, SERVER, &line);
            }
        }
        match random.below(3) {
            0 => self.says(CLIENT, b"ALGS STATUS64\r\n"),
            1 => self.says(SERVER, b"200 ok\r\n"),
            _ => self.says(SERVER, b"227 x (192,0,2,31,237,19)\r\n"),
        }
    }

    fn one_sided(&mut self, random: &mut Random) {
        if random.percent(50) {
            let command = lines::command(random, self.client);
            self.says_line(random, CLIENT, &command);
        } else {
            let reply = lines::reply(random);
            self.says_line(random, SERVER, &reply);
        }
    }

    /// A command that the gateway answers itself, at times inside a reply, which keeps its answer
    /// back, or behind a line that stands alone or is held, which don't, or behind others.
    fn own_answer(&mut self, random: &mut Random) {
        if random.percent(40) {
            self.says(
                SERVER,
                random.pick(&[&b"211-x\r\n"[..], b"hello\r\n", b"22", b"211-x"]),
            );
        }
        if random.percent(30) {
            self.says(CLIENT, b"NOOP\r\n");
        }
        let command = match random.below(3) {
            0 => random.pick(&[&b"EPSV 1"[..], b"EPSV ALL"]).to_vec(),
            _ => lines::algs(random),
        };
        self.says_line(random, CLIENT, &command);
        for _ in 0..random.below(3) {
            self.says(
                SERVER,
                random.pick(&[&b"200 ok\r\n"[..], b"0 x\r\n", b"211 x\r\n"]),
            );
        }
    }

    /// Up to more than sixteen at once, in one arrival.
    fn many_commands(&mut self, random: &mut Random) {
        let command = random.pick(&[&b"NOOP\r\n"[..], b"ALGS STATUS64\r\n", b"EPSV\r\n", b"\n"]);
        let mut octets = command.repeat(random.between(10, 20));
        if random.percent(30) {
            let last = lines::command(random, self.client);
            octets.extend(last);
            octets.extend(lines::line_end(random));
        }
        if random.percent(20) {
            octets.extend(b"AUTH TLS\r\n");
        }
        self.says(CLIENT, &octets);
        if random.percent(60) {
            self.many_replies(random);
        }
    }

    fn many_replies(&mut self, random: &mut Random) {
        let passive = b"227 x (192,0,2,31,237,19)\r\n";
        let reply = random.pick(&[&b"200 ok\r\n"[..], b"200 ok\r\n", b"500 no\r\n", passive]);
        let octets = reply.repeat(random.between(1, 18));
        self.says(SERVER, &octets);
    }

    /// AUTH, at times behind owed replies, with server octets held or inside a reply, and what
    /// follows it.
    fn auth(&mut self, random: &mut Random) {
        if random.percent(40) {
            self.exchange(random);
        }
        if random.percent(60) {
            self.says(
                SERVER,
                random.pick(&[
                    &b"23"[..],
                    b"227 x (1,2,3",
                    b"214-x",
                    b"150-",
                    b"214-x\r\n",
                    b"150-\r\n",
                ]),
            );
        }
        let command = lines::auth(random);
        if random.percent(15) {
            let line = lines::filled(random, &command);
            self.says(CLIENT, &line);
        } else {
            self.says_line(random, CLIENT, &command);
        }
        let reply = lines::auth_reply(random);
        self.says_line(random, SERVER, &reply);
        for _ in 0..random.below(4) {
            let side = random.below(2) as u8;
            self.says(
                side,
                random.pick(&[
                    &b"\x16\x03\x01"[..],
                    b"EPSV\r\n",
                    b"2",
                    b"227 x (1,2,3,4,5,6)\r\n",
                ]),
            );
        }
    }

    fn long_line(&mut self, random: &mut Random) {
        if random.percent(50) {
            let start = match random.below(4) {
                0 => lines::auth(random),
                1 => b"EPSV".to_vec(),
                _ => lines::command(random, self.client),
            };
            let line = lines::filled(random, &start);
            self.says(CLIENT, &line);
        } else {
            let start = lines::reply(random);
            let line = lines::filled(random, &start);
            self.says(SERVER, &line);
        }
    }

    fn telnet_step(&mut self, random: &mut Random) {
        match random.below(100) {
            0..=19 => self.offers(random),
            20..=44 => self.unfinished_command(random),
            45..=62 => self.doubled_line(random),
            63..=75 => self.auth_inside_a_command(random),
            76..=86 => self.end_inside_a_command(random),
            87..=92 => self.inside_a_reply(random),
            _ => self.number_1_inside_a_command(random),
        }
    }

    /// One side after the other opens with offers.
    fn offers(&mut self, random: &mut Random) {
        for _ in 0..random.between(1, 4) {
            let side = random.below(2) as u8;
            let mut offers = telnet::offer(random);
            for _ in 0..random.below(3) {
                offers.extend(telnet::command(random));
            }
            if random.percent(40) {
                offers.extend(random.pick(&[&b"NOOP\r\n"[..], b"2", b"200 ok\r\n"]));
            }
            self.says(side, &offers);
        }
    }

    /// A command in two arrivals, with what the other side says between them, and lines before and
    /// after it.
    fn unfinished_command(&mut self, random: &mut Random) {
        let side = random.below(2) as u8;
        let (start, last) = telnet::unfinished(random);
        if random.percent(40) {
            let line = random.pick(&[&b"22"[..], b"EP", b"\xff\xff", b"NOOP\r\n", b"x\r"]);
            self.says(side, line);
        }
        self.says(side, &start);
        if random.percent(40) {
            let other = telnet::command(random);
            self.says(1 - side, &other);
        }
        if random.percent(30) {
            self.says(1 - side, random.pick(&[&b"ALGS\n"[..], b"200 ok\n", b"2"]));
        }
        self.says(side, &last);
        if random.percent(70) {
            self.says(
                side,
                random.pick(&[&b"\r\n"[..], b"\n", b"SV\r\n", b"0 x\r\n"]),
            );
        }
    }

    fn doubled_line(&mut self, random: &mut Random) {
        let side = random.below(2) as u8;
        let start = match (side, random.below(3)) {
            (CLIENT, 0) => lines::auth(random),
            (CLIENT, 1) => b"auth \xff\xff".to_vec(),
            (CLIENT, _) => random.pick(&[&b"EPSV "[..], b"", b"", b"ALGS "]).to_vec(),
            (_, 0) => lines::ender(random, *b"214"),
            (_, _) => random.pick(&[&b"200 "[..], b"", b"214-"]).to_vec(),
        };
        let start: Vec<u8> = start.into_iter().filter(|&octet| octet != b'\n').collect();
        let line = telnet::long_line(random, &start);
        self.says(side, &line);
        if random.percent(50) {
            let command = telnet::command(random);
            self.says(side, &command);
        }
        if random.percent(50) {
            self.says(side, b"\r\n");
        }
    }

    /// The server inside a command, with nothing owed more often than not, so that AUTH reaches the
    /// head there.
    fn auth_inside_a_command(&mut self, random: &mut Random) {
        if random.percent(80) {
            self.says(SERVER, &b"200 ok\r\n".repeat(random.between(1, 16)));
        }
        match random.below(4) {
            0 => {}
            1 => {
                let line = telnet::long_line(random, b"200 ");
                let line = line.strip_suffix(b"\n").unwrap_or(&line);
                self.says(SERVER, line);
            }
            _ => self.says(
                SERVER,
                random.pick(&[&b"2"[..], b"227 x", b"\xff\xff", b"214-"]),
            ),
        }
        let (start, last) = telnet::unfinished(random);
        self.says(SERVER, &start);
        match random.below(4) {
            0 => {
                let line = telnet::long_line(random, b"AUTH ");
                self.says(CLIENT, &line);
            }
            1 => self.says(CLIENT, b"A\xff\xf1UT\xff\xfb\x01H\n"),
            _ => self.says(CLIENT, random.pick(&[&b"AUTH\n"[..], b"auth tls\r\n"])),
        }
        self.says(SERVER, &last);
        for _ in 0..random.below(4) {
            let side = random.below(2) as u8;
            let raw = telnet::command(random);
            self.says(side, &raw);
        }
    }

    fn end_inside_a_command(&mut self, random: &mut Random) {
        let side = random.below(2) as u8;
        match random.below(4) {
            0 => {}
            1 => {
                let line = telnet::long_line(random, b"");
                let line = line.strip_suffix(b"\n").unwrap_or(&line);
                self.says(side, line);
            }
            _ => self.says(side, random.pick(&[&b"2"[..], b"EPS", b"\xff\xff", b"\r"])),
        }
        let (start, _) = telnet::unfinished(random);
        self.says(side, &start);
        self.calls.push(Call::end(side));
        for _ in 0..random.below(3) {
            let other = telnet::command(random);
            self.says(1 - side, &other);
        }
    }

    /// Telnet waits for no reply to end, and own answers wait for no Telnet.
    fn inside_a_reply(&mut self, random: &mut Random) {
        self.says(SERVER, b"214-x\r\n");
        self.says(CLIENT, &b"ALGS\n".repeat(random.between(1, 16)));
        for _ in 0..random.between(1, 3) {
            let side = random.below(2) as u8;
            let command = telnet::command(random);
            self.says(side, &command);
        }
        if random.percent(30) {
            let line = telnet::long_line(random, b"214 ");
            self.says(SERVER, &line);
        }
        self.says(SERVER, b"2\xff\xf114 x\r\n");
    }

    /// A client that owes nothing more may say no 255 either.
    fn number_1_inside_a_command(&mut self, random: &mut Random) {
        let (start, last) = telnet::unfinished(random);
        let mut octets = b"NOOP\n".repeat(random.between(14, 17));
        octets.extend(&start);
        self.says(CLIENT, &octets);
        self.says(CLIENT, &last);
        self.says(SERVER, b"200 ok\n");
        self.says(CLIENT, &[&start[..], &last].concat());
        self.many_replies(random);
    }

    /// Longer than an entry of a session file may be, and than the room for it.
    fn longest_line(&mut self, random: &mut Random) {
        let mut line = b"NOOP ".to_vec();
        line.resize(random.between(2000, 20000), b'x');
        line.extend(b"\r\n");
        let place = random.below(self.calls.len() + 1);
        let call = Call::arrival(random.below(2) as u8, &line);
        self.calls.insert(place, call);
    }

    /// With octets held, more often than not, or inside a reply.
    fn ends(&mut self, random: &mut Random) {
        let side = random.below(2) as u8;
        if random.percent(60) {
            let held = if side == CLIENT {
                random.pick(&[&b"EPS"[..], b"22", b"AUTH TLS", b"\r"])
            } else {
                random.pick(&[&b"22"[..], b"227 x (1,2", b"214-x", b"150-", b"214-x\r\n"])
            };
            self.says(side, held);
        }
        self.calls.push(Call::end(side));
    }
}

/// Cuts arrivals anywhere, and lets pieces of the two directions overtake each other.
fn cut(random: &mut Random, longest: usize, calls: Vec<Call>) -> Vec<Call> {
    let often = random.pick(&[0, 20, 50, 90]);
    let mut pieces = Vec::new();
    for call in calls {
        if call.what == What::End {
            pieces.push(call);
            continue;
        }
        let mut rest = call.octets();
        while rest.len() > longest || (rest.len() > 1 && random.percent(often)) {
            let most = rest.len().min(longest);
            let most = if random.percent(40) {
                most.min(4)
            } else {
                most
            };
            let (piece, after) = rest.split_at(random.between(1, most));
            pieces.push(call.with_octets(piece));
            rest = after;
        }
        pieces.push(call.with_octets(rest));
    }
    for place in 1..pieces.len() {
        if pieces[place - 1].direction != pieces[place].direction && random.percent(often / 4) {
            pieces.swap(place - 1, place);
        }
    }
    pieces
}

/// After a call that stopped, its rest arrives again, more often than not.
fn with_rests(random: &mut Random, setup: Setup, calls: Vec<Call>, telnet: bool) -> Vec<Call> {
    let (mut reference, _) = Reference::setup(&setup);
    let mut all = Vec::new();
    for call in calls {
        let mut next = Some(call);
        while let Some(call) = next.take() {
            let seen = reference.call(&call);
            if matches!(seen.answer, 1 | 2) && random.percent(70) {
                let mut rest = call.clone();
                if let What::Arrival(octets) = &call.what {
                    rest = call.with_octets(&octets[seen.taken..]);
                }
                rest.rooms = rooms(random, telnet);
                next = Some(rest);
            }
            all.push(call);
        }
    }
    all
}

#[cfg(test)]
mod tests {
    use super::*;
    use crate::foreign::{self, Foreign};
    use crate::gateways::Seen;
    use crate::multi_line::{self, MultiLine};
    use crate::telnet_cases;
    use std::collections::BTreeSet;

    const MANY: u64 = 2000;

    /// What a session comes to, as far as it can be seen from outside.
    #[derive(Default)]
    struct Reached {
        answers: [bool; 7],
        extended_passive: bool,
        /// Of a strict session: the server's address, and a foreign one.
        own_address: bool,
        foreign_address: bool,
        foreign: Foreign,
        port_line: bool,
        own_answer: bool,
        passes_at_once: [bool; 2],
        flows: [bool; 2],
        held_at_end: bool,
        removed: [bool; 2],
        replies: MultiLine,
    }

    fn contains(octets: &[u8], text: &[u8]) -> bool {
        octets.windows(text.len()).any(|part| part == text)
    }

    impl Reached {
        fn of(session: &Session) -> Reached {
            let (mut reference, seen) = Reference::setup(&session.setup);
            let mut reached = Reached {
                foreign: Foreign::of(&session.setup),
                ..Reached::default()
            };
            reached.answers[usize::from(seen.answer)] = true;
            let mut unfinished = [0; 2];
            let strict = session.setup.flags & STRICT != 0;
            for call in &session.calls {
                let seen = reference.call(call);
                reached.look(call, &seen);
                reached.own_address = strict && reached.extended_passive;
                reached.replies.look(call, &seen);
                reached.foreign.look(call, &seen);
                if call.direction < 2 {
                    let side = usize::from(call.direction);
                    reached.look_at_line(side, &mut unfinished[side], call, &seen);
                }
            }
            reached
        }

        fn look(&mut self, call: &Call, seen: &Seen) {
            self.answers[usize::from(seen.answer)] = true;
            self.extended_passive |= contains(&seen.to_client, b"229 Entering Extended");
            self.foreign_address |= contains(&seen.to_client, b"425 Can't open");
            self.port_line |=
                contains(&seen.to_server, b"PORT ") && !contains(call.octets(), b"PORT ");
            let own = [&b"522 Net"[..], b"504 Com", b"216 NONE", b"216 EP"];
            self.own_answer |= own.iter().any(|line| contains(&seen.to_client, line));
            let wrote = !seen.to_server.is_empty() || !seen.to_client.is_empty();
            self.held_at_end |= call.what == What::End && wrote;
            self.removed = seen.totals.removed.map(|octets| octets > 0);
        }

        /// Octets of an unfinished line that are written: a line of 512 flows, a shorter one
        /// passes at once.
        fn look_at_line(&mut self, side: usize, unfinished: &mut usize, call: &Call, seen: &Seen) {
            let taken = &call.octets()[..seen.taken];
            let written = [&seen.to_server, &seen.to_client][side];
            let line = taken
                .rsplit(|&octet| octet == b'\n')
                .next()
                .unwrap_or(taken);
            let whole = line.len() == taken.len();
            *unfinished = if whole {
                *unfinished + line.len()
            } else {
                line.len()
            };
            if !line.is_empty() && written.ends_with(line) {
                self.flows[side] |= *unfinished >= 512;
                self.passes_at_once[side] |= *unfinished < 512;
            }
        }
    }

    /// Asks that at least one of so many comes to it.
    fn reach(one_of: usize, name: &str, all: &[Reached], reached: impl Fn(&Reached) -> bool) {
        let count = all.iter().filter(|one| reached(one)).count();
        let said = format!("{name}: {count} of {}", all.len());
        println!("{said}");
        assert!(count * one_of >= all.len(), "{said}");
    }

    fn often(name: &str, all: &[Reached], reached: impl Fn(&Reached) -> bool) {
        reach(20, name, all, reached);
    }

    fn at_times(name: &str, all: &[Reached], reached: impl Fn(&Reached) -> bool) {
        reach(150, name, all, reached);
    }

    fn everything_often(all: &[Reached]) {
        often("a 229", all, |one| one.extended_passive);
        at_times("a 229 in a strict session", all, |one| one.own_address);
        at_times("a 425", all, |one| one.foreign_address);
        for case in foreign::CASES {
            at_times(case, all, |one| one.foreign.met.contains(case));
        }
        often("an EPRT translated", all, |one| one.port_line);
        often("an own answer", all, |one| one.own_answer);
        often("the client passes at once", all, |one| {
            one.passes_at_once[0]
        });
        often("the server passes at once", all, |one| {
            one.passes_at_once[1]
        });
        often("a client line flows", all, |one| one.flows[0]);
        often("a server line flows", all, |one| one.flows[1]);
        often("an end with octets held", all, |one| one.held_at_end);
        often("the client's octets removed", all, |one| one.removed[0]);
        often("the server's octets removed", all, |one| one.removed[1]);
        often("answer 1", all, |one| one.answers[1]);
        often("answer 6", all, |one| one.answers[6]);
        for case in multi_line::CASES {
            at_times(case, all, |one| one.replies.met.contains(case));
        }
        for line in multi_line::ALONE {
            let case = multi_line::alone(line);
            at_times(&case, all, |one| one.replies.met.contains(&case));
        }
    }

    #[test]
    fn sessions_come_to_everything() {
        let all: Vec<Reached> = (1..=MANY).map(|seed| Reached::of(&session(seed))).collect();
        everything_often(&all);
    }

    #[test]
    fn lists_come_to_everything() {
        let all: Vec<Reached> = (1..=MANY).map(|seed| Reached::of(&list(seed))).collect();
        everything_often(&all);
        for answer in [2, 3, 4, 5] {
            often(&format!("answer {answer}"), &all, |one| one.answers[answer]);
        }
    }

    type Change = fn(&mut Setup);

    /// Whether something else comes of a session that is set up otherwise.
    fn shows(session: &Session, otherwise: Change) -> bool {
        let mut other = session.setup;
        otherwise(&mut other);
        let (mut one, _) = Reference::setup(&session.setup);
        let (mut two, _) = Reference::setup(&other);
        let mut calls = session.calls.iter();
        calls.any(|call| one.call(call) != two.call(call))
    }

    /// Whoever forgot the flag, or took another address, would be found out.
    #[test]
    fn the_strict_form_shows() {
        let setups: [(&str, Change); 4] = [
            ("not strict", |setup| setup.flags &= !STRICT),
            ("strict", |setup| setup.flags |= STRICT),
            ("the mapped address", |setup| setup.server = setup.mapped),
            ("no address", |setup| setup.server = [0; 4]),
        ];
        let all: Vec<Session> = (1..=MANY)
            .flat_map(|seed| [session(seed), list(seed)])
            .collect();
        for (name, otherwise) in setups {
            let count = all.iter().filter(|one| shows(one, otherwise)).count();
            println!("{name}: {count} of {}", all.len());
            assert!(count * 150 >= all.len(), "{name}: {count}");
        }
    }

    #[test]
    fn sessions_are_files_and_their_own() {
        for telnet in [false, true] {
            let session = |seed| session_of(seed, telnet);
            assert!((1..=MANY).all(|seed| session(seed).file().is_some()));
            assert_eq!(session(3), session(3));
            assert_ne!(session(3), session(4));
        }
    }

    /// At least one in 500 comes to each of the cases.
    fn telnet_at_times(all: &[BTreeSet<String>], cases: Vec<String>) {
        let count = |case: &String| all.iter().filter(|met| met.contains(case)).count();
        let counts: Vec<String> = cases
            .iter()
            .map(|case| format!("{case}: {} of {}", count(case), all.len()))
            .collect();
        println!("{}", counts.join("\n"));
        let rare = cases.iter().filter(|case| count(case) * 500 < all.len());
        let rare: Vec<&String> = rare.collect();
        assert!(rare.is_empty(), "{rare:?}");
    }

    #[test]
    fn sessions_come_to_all_of_telnet() {
        let met = |seed| telnet_cases::met(&session_of(seed, true));
        let all: Vec<_> = (1..=MANY).map(met).collect();
        telnet_at_times(&all, telnet_cases::cases());
    }

    #[test]
    fn lists_come_to_all_of_telnet() {
        let met = |seed| telnet_cases::met(&list_of(seed, true));
        let all: Vec<_> = (1..=MANY).map(met).collect();
        telnet_at_times(&all, telnet_cases::cases());
        telnet_at_times(&all, telnet_cases::cases_of_rooms());
    }

    /// With Telnet material they still come to answers of every number.
    #[test]
    fn telnet_leaves_all_answers() {
        let seeds = 1..=MANY;
        let all: Vec<Reached> = seeds
            .map(|seed| Reached::of(&list_of(seed, true)))
            .collect();
        for answer in 0..7 {
            often(&format!("answer {answer}"), &all, |one| one.answers[answer]);
        }
        at_times("a 229", &all, |one| one.extended_passive);
        at_times("a 425", &all, |one| one.foreign_address);
        at_times("an own answer", &all, |one| one.own_answer);
    }
}
