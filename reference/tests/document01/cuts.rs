//! Sessions cut into other arrivals, or given less room, give the same octets.

use reference::commands::{self, Addresses, Switches};
use reference::output::Given;
use reference::queue::Owed;

use crate::layer::{Does, Layer};
use crate::random::{auth_inside_a_command, session, Item, Random};
use crate::talk::{
    fresh, Gateway, Outcome, ALL_ON, CLIENT, CLIENT_ADDRESS, MAPPED, PLENTY, SERVER, STRICT,
};

/// The flags that setup takes.
const FLAGS: [u8; 12] = [0, 1, 2, 3, 6, 7, 8, 9, 10, 11, 14, 15];
/// All on, in the strict form too.
const MOST_ON: [u8; 2] = [ALL_ON, ALL_ON | STRICT];

/// All that came of one side's arrivals: the last answer, and the rest joined.
fn join(first: Outcome, second: Outcome) -> Outcome {
    Outcome {
        answer: second.answer,
        taken: first.taken + second.taken,
        to_server: [first.to_server, second.to_server].concat(),
        to_client: [first.to_client, second.to_client].concat(),
    }
}

fn run(gateway: &mut Gateway, item: &Item) -> Outcome {
    match item {
        Item::Arrival(direction, octets) => gateway.arrive(*direction, octets, PLENTY, PLENTY),
        Item::End(direction) => gateway.end(*direction, PLENTY, PLENTY),
    }
}

/// An arrival in two pieces; the second is not tried where the first stops.
fn run_cut(gateway: &mut Gateway, direction: u8, octets: &[u8], cut: usize) -> Outcome {
    let first = gateway.arrive(direction, &octets[..cut], PLENTY, PLENTY);
    if first.answer != 0 {
        return first;
    }
    join(
        first,
        gateway.arrive(direction, &octets[cut..], PLENTY, PLENTY),
    )
}

/// Both the octets and the record, on which all that follows depends, are the same.
#[test]
fn a_cut_at_every_place_changes_nothing() {
    let mut random = Random::new(1);
    for round in 0..20 {
        let mut gateway = fresh(FLAGS[round % FLAGS.len()]);
        for item in session(&mut random, 20) {
            let before = gateway.clone();
            let uncut = run(&mut gateway, &item);
            let Item::Arrival(direction, octets) = item else {
                continue;
            };
            for cut in 0..=octets.len() {
                let mut other = before.clone();
                let outcome = run_cut(&mut other, direction, &octets, cut);
                assert_eq!(outcome, uncut, "round {round}, cut {cut}");
                assert_eq!(other, gateway, "round {round}, cut {cut}");
            }
        }
    }
}

/// The whole session again, octet by octet, from outside: what each side has got by then.
#[test]
fn octet_by_octet_changes_nothing() {
    let mut random = Random::new(2);
    for round in 0..300 {
        let flags = MOST_ON[round % MOST_ON.len()];
        let (mut whole, mut split) = (fresh(flags), fresh(flags));
        let (mut of_whole, mut of_split) = (Outcome::default(), Outcome::default());
        for item in session(&mut random, 30) {
            of_whole = join(of_whole, run(&mut whole, &item));
            for piece in split_into_octets(&item) {
                of_split = join(of_split, run(&mut split, &piece));
                if of_split.answer != 0 {
                    break;
                }
            }
            assert_eq!(of_split, of_whole);
            for direction in [CLIENT, SERVER] {
                assert_eq!(split.offset(direction), whole.offset(direction));
            }
        }
    }
}

/// An empty arrival first, since an arrival with no octets is refused like any other.
fn split_into_octets(item: &Item) -> Vec<Item> {
    match item {
        Item::Arrival(direction, octets) => {
            let mut pieces = vec![Item::Arrival(*direction, Vec::new())];
            pieces.extend(octets.iter().map(|&o| Item::Arrival(*direction, vec![o])));
            pieces
        }
        Item::End(direction) => vec![Item::End(*direction)],
    }
}

/// Number 2 only puts octets off: with room for them later, the same comes out.
#[test]
fn little_room_changes_nothing() {
    let mut random = Random::new(3);
    for round in 0..300 {
        let flags = MOST_ON[round % MOST_ON.len()];
        let (mut roomy, mut tight) = (fresh(flags), fresh(flags));
        for item in session(&mut random, 20) {
            let uncut = run(&mut roomy, &item);
            let outcome = run_tight(&mut tight, &item, &mut random);
            assert_eq!(outcome, uncut);
            assert_eq!(tight, roomy);
        }
    }
}

fn run_tight(gateway: &mut Gateway, item: &Item, random: &mut Random) -> Outcome {
    let mut all = Outcome::default();
    loop {
        let scale = random.pick(&[&1, &10, &100, &1900]);
        let (server_room, client_room) = (random.below(*scale), random.below(*scale));
        let outcome = match item {
            Item::Arrival(direction, octets) => {
                let rest = &octets[all.taken..];
                gateway.arrive(*direction, rest, server_room, client_room)
            }
            Item::End(direction) => gateway.end(*direction, server_room, client_room),
        };
        assert!(outcome.to_server.len() <= server_room);
        assert!(outcome.to_client.len() <= client_room);
        all = join(all, outcome);
        if all.answer != 2 {
            return all;
        }
    }
}

/// "Octet by octet 1 before 2": whatever the room, an arrival stops just where its octets would
/// if they came one by one into what room is left, with the same octets and the same record.
#[test]
fn a_stop_is_where_single_octets_stop() {
    let mut random = Random::new(6);
    let mut stops = [0; 7];
    for round in 0..600 {
        let mut gateway = fresh(FLAGS[round % FLAGS.len()]);
        for item in session(&mut random, 30) {
            let Item::Arrival(direction, octets) = item else {
                run(&mut gateway, &item);
                continue;
            };
            let scale = random.pick(&[&1, &10, &100, &1900]);
            let rooms = [random.below(*scale), random.below(*scale)];
            let mut single = gateway.clone();
            let outcome = gateway.arrive(direction, &octets, rooms[0], rooms[1]);
            let of_single = run_singly(&mut single, direction, &octets, rooms);
            assert_eq!(outcome, of_single, "round {round}");
            assert_eq!(gateway, single, "round {round}");
            stops[usize::from(outcome.answer)] += 1;
        }
    }
    assert!([0, 1, 2, 6].iter().all(|&answer| stops[answer] > 50));
}

/// An empty arrival, then octets one by one until one of them waits.
fn run_singly(
    gateway: &mut Gateway,
    direction: u8,
    octets: &[u8],
    [server_room, client_room]: [usize; 2],
) -> Outcome {
    let mut all = gateway.arrive(direction, &[], server_room, client_room);
    for octet in octets.chunks(1) {
        if all.answer != 0 {
            break;
        }
        let server_left = server_room - all.to_server.len();
        let client_left = client_room - all.to_client.len();
        let outcome = gateway.arrive(direction, octet, server_left, client_left);
        all = join(all, outcome);
    }
    all
}

/// "A non-empty arrival not refused by 3, 4, 6 or stopped by 1 takes at least one octet when
/// each buffer has" 1,791 free, since no octet writes more than 1,024 and 1,791. An end writes at
/// most 511 octets 255, doubled, and two of a command.
#[test]
fn every_octet_keeps_within_its_bounds() {
    let mut random = Random::new(4);
    for _ in 0..500 {
        let mut gateway = fresh(ALL_ON);
        for item in session(&mut random, 30) {
            for piece in split_into_octets(&item) {
                let outcome = match &piece {
                    Item::Arrival(direction, octets) => {
                        gateway.arrive(*direction, octets, 1024, 1791)
                    }
                    Item::End(direction) => gateway.end(*direction, 1024, 1024),
                };
                assert_ne!(outcome.answer, 2);
            }
        }
    }
}

/// What the client has said, read for the server.
#[derive(Default)]
struct Read {
    layer: Layer,
    /// Data octets, and from AUTH on all.
    said: Vec<u8>,
    /// How many of them stand before what passes at once, where something does.
    until_auth: Option<usize>,
    removed: u32,
}

/// "To the server: the client's octets are one text, read line by line": the output "without these
/// answers and without passed Telnet commands, each told apart by the octet or end that wrote it".
#[test]
fn what_goes_to_the_server_is_read_from_the_clients_text() {
    let mut random = Random::new(5);
    for round in 0..300 {
        let flags = FLAGS[round % FLAGS.len()];
        let mut gateway = fresh(flags);
        let mut read = Read::default();
        let (mut given, mut ended) = (Vec::new(), false);
        for item in session(&mut random, 30) {
            for piece in split_into_octets(&item) {
                let mut outcome = run(&mut gateway, &piece);
                match piece {
                    Item::Arrival(CLIENT, octets) if outcome.taken == 1 => {
                        let is_command = read.take(flags, octets[0], &outcome);
                        outcome.to_server.retain(|_| !is_command);
                    }
                    Item::End(CLIENT) if !ended => {
                        let unfinished = read.layer.unfinished();
                        assert!(outcome.to_server.ends_with(unfinished));
                        let lines = outcome.to_server.len() - unfinished.len();
                        outcome.to_server.truncate(lines);
                        ended = true;
                    }
                    Item::Arrival(SERVER, _) => outcome.to_server.clear(),
                    _ => {}
                }
                given.extend(outcome.to_server);
            }
            assert_eq!(given, read.to_server(flags, ended).0, "round {round}");
            assert_eq!(gateway.removed(CLIENT), read.removed, "round {round}");
        }
    }
}

impl Read {
    /// Takes an octet, and says whether it is one of a command, which gives nothing to a line.
    fn take(&mut self, flags: u8, octet: u8, outcome: &Outcome) -> bool {
        if self.until_auth.is_some() {
            self.said.push(octet);
            return false;
        }
        match self.layer.take(octet) {
            Does::Data(octet) => {
                self.said.push(octet);
                let line = self.said.rsplit(|&octet| octet == b'\n').next();
                let is_512th = line.is_some_and(|line| line.len() == 512);
                if (octet == b'\n' || is_512th) && self.to_server(flags, false).1 {
                    self.until_auth = Some(self.said.len());
                }
                return false;
            }
            Does::Nothing => assert_eq!((&outcome.to_server, &outcome.to_client), NOTHING),
            Does::Answers(answer) => assert_eq!(outcome.to_client, answer),
            Does::Passes(command) => assert_eq!(outcome.to_server, command),
            Does::Removes(count) => self.removed += count,
        }
        true
    }

    /// What the lines give, and whether one of them is AUTH.
    fn to_server(&self, flags: u8, ended: bool) -> (Vec<u8>, bool) {
        let (lines, at_once) = self
            .said
            .split_at(self.until_auth.unwrap_or(self.said.len()));
        let (mut given, auth) = lines_to_server(flags, lines, ended);
        given.extend(at_once);
        (given, auth)
    }
}

const NOTHING: (&Vec<u8>, &Vec<u8>) = (&Vec::new(), &Vec::new());

/// Every 255 of a line leaves doubled.
fn doubled(line: &[u8]) -> impl Iterator<Item = u8> + '_ {
    let times = |octet| if octet == 255 { 2 } else { 1 };
    line.iter()
        .flat_map(move |&octet| std::iter::repeat_n(octet, times(octet)))
}

fn lines_to_server(flags: u8, said: &[u8], ended: bool) -> (Vec<u8>, bool) {
    let addresses = Addresses {
        client: CLIENT_ADDRESS,
        mapped: MAPPED,
    };
    // The strict flag says nothing of client lines.
    let mut switches = Switches::of_flags(flags & ALL_ON).expect("defined flags");
    let mut given = Vec::new();
    let mut rest = said;
    while let Some(lf) = rest.iter().position(|&octet| octet == b'\n') {
        let (line, after) = rest.split_at(lf + 1);
        rest = after;
        if line.len() > 512 {
            given.extend(doubled(line));
            continue;
        }
        let judged = commands::judge(&line[..lf], &addresses, switches);
        match judged.given {
            Given::Line => given.extend(doubled(line)),
            Given::Made(made) => given.extend(made.to_vec()),
            Given::Nothing => {}
        }
        switches = judged.switches;
        if judged.owed == Owed::Auth {
            return (given, true);
        }
    }
    let flows = rest.len() >= 512;
    if ended || flows {
        given.extend(doubled(rest));
    }
    let auth = flows && rest.first_chunk().is_some_and(commands::flowing_auth);
    (given, auth)
}

/// Telnet commands change nothing of what lines give: without them each octet left writes the same,
/// and they write what the layer says, until their direction passes at once.
#[test]
fn lines_give_the_same_without_telnet_commands() {
    let mut random = Random::new(7);
    let (mut answers, mut cut_by_auth) = (0, 0);
    for round in 0..300 {
        let mut gateway = fresh(ALL_ON);
        let mut apart = Apart::begin();
        let mut items = session(&mut random, 30);
        if round % 4 == 0 {
            items.splice(..0, auth_inside_a_command(&mut random));
        }
        for item in items {
            for piece in split_into_octets(&item) {
                let outcome = run(&mut gateway, &piece);
                if !matches!(outcome.answer, 1 | 6) {
                    assert_eq!(outcome, apart.run(&piece), "round {round}");
                }
            }
            assert_eq!([CLIENT, SERVER].map(|d| gateway.removed(d)), apart.removed);
        }
        answers += apart.answers;
        cut_by_auth += apart.cut_by_auth;
    }
    assert!(answers > 500 && cut_by_auth > 40);
}

/// A gateway that gets no Telnet commands, and the layer of each direction beside it.
struct Apart {
    lines: Gateway,
    layers: [Layer; 2],
    removed: [u32; 2],
    answers: usize,
    cut_by_auth: usize,
}

impl Apart {
    fn begin() -> Apart {
        Apart {
            lines: fresh(ALL_ON),
            layers: [Layer::default(), Layer::default()],
            removed: [0; 2],
            answers: 0,
            cut_by_auth: 0,
        }
    }

    fn run(&mut self, piece: &Item) -> Outcome {
        match piece {
            Item::End(direction) => {
                let outcome = run(&mut self.lines, piece);
                join(outcome, self.leave(*direction))
            }
            Item::Arrival(direction, octets) => match octets[..] {
                [octet] => self.octet(*direction, octet),
                _ => Outcome::default(),
            },
        }
    }

    fn octet(&mut self, direction: u8, octet: u8) -> Outcome {
        if self.passes_at_once(direction) {
            return run(&mut self.lines, &Item::Arrival(direction, vec![octet]));
        }
        let side = usize::from(direction);
        let mut outcome = match self.layers[side].take(octet) {
            Does::Data(octet) => self.data(direction, octet),
            Does::Nothing => Outcome::default(),
            Does::Answers(answer) => {
                self.answers += 1;
                onward(1 - direction, &answer)
            }
            Does::Passes(command) => onward(direction, &command),
            Does::Removes(count) => {
                self.removed[side] += count;
                Outcome::default()
            }
        };
        outcome.taken = 1;
        outcome
    }

    /// A data octet, which may be the one that AUTH reaches the head with.
    fn data(&mut self, direction: u8, octet: u8) -> Outcome {
        let octets = vec![octet; if octet == 255 { 2 } else { 1 }];
        let passed = self.passes_at_once(SERVER);
        let outcome = run(&mut self.lines, &Item::Arrival(direction, octets));
        if passed || !self.passes_at_once(SERVER) {
            return outcome;
        }
        let left = self.leave(SERVER);
        self.cut_by_auth += usize::from(!left.to_client.is_empty());
        join(outcome, left)
    }

    /// A 255 is written at once, or else begins a command.
    fn passes_at_once(&self, direction: u8) -> bool {
        let outcome = self.lines.clone().arrive(direction, &[255], 1, 1);
        !outcome.to_server.is_empty() || !outcome.to_client.is_empty()
    }

    /// What the layer of a direction lets pass where it is left.
    fn leave(&mut self, direction: u8) -> Outcome {
        let layer = std::mem::take(&mut self.layers[usize::from(direction)]);
        onward(direction, layer.unfinished())
    }
}

/// Octets written on, the way a direction goes.
fn onward(direction: u8, octets: &[u8]) -> Outcome {
    let mut outcome = Outcome::default();
    if direction == CLIENT {
        outcome.to_server.extend(octets);
    } else {
        outcome.to_client.extend(octets);
    }
    outcome
}

/// A million octets in one flowing line each way, and as many behind AUTH.
#[test]
fn long_traffic_is_not_quadratic() {
    let traffic = vec![b'x'; 1_000_000];
    let mut flowing = fresh(ALL_ON);
    let mut behind_auth = fresh(ALL_ON);
    behind_auth.arrive(CLIENT, b"AUTH\r\n", PLENTY, PLENTY);
    behind_auth.arrive(SERVER, b"220\r\n", PLENTY, PLENTY);
    for gateway in [&mut flowing, &mut behind_auth] {
        for direction in [CLIENT, SERVER] {
            let room = traffic.len();
            let outcome = gateway.arrive(direction, &traffic, room, room);
            assert_eq!((outcome.answer, outcome.taken), (0, traffic.len()));
            assert_eq!(gateway.offset(direction), 0);
        }
    }
}
