//! The server's direction: its lines, the replies owed, and what follows each octet.

use crate::lines::{content, find_stop};
use crate::output::{Given, Output, Outputs, Step, Text};
use crate::queue::{Owed, Queue};
use crate::replies::{extended_passive, Code, Role};
use crate::side::{Place, Reach, Side, Start, DOUBLED};
use crate::telnet::{State, IAC};

/// After each octet the queue is settled: no own answer stands at its head that may be written,
/// and where AUTH does, the server's octets pass at once.
#[derive(Clone, Debug, PartialEq, Eq)]
pub struct Server {
    pub side: Side,
    owed: Queue,
    /// "The record keeps the opening code" of the reply that is unfinished.
    unfinished: Option<Code>,
    /// In the strict form the only address that a 227 may have: the server's.
    only: Option<[u8; 4]>,
}

/// What the LF of a server line does to the reply and to the queue.
struct LineEnd {
    /// The opening code of the reply that is unfinished then.
    unfinished: Option<Code>,
    /// The first owed kind, if the line removes it.
    removed: Option<Owed>,
    /// Octets of the own answers that follow.
    answers: usize,
}

impl Server {
    pub fn fresh(only: Option<[u8; 4]>) -> Server {
        Server {
            side: Side::fresh(),
            owed: Queue::fresh(),
            unfinished: None,
            only,
        }
    }

    pub fn owes_most(&self) -> bool {
        self.owed.is_full()
    }

    /// Takes octets up to the end of the line, the 512th of it, a 255, or the first that has to
    /// wait. Number 6 stands before octets of a side that has ended.
    pub fn step(&mut self, octets: &[u8], outputs: &mut Outputs) -> Step {
        let to_client = &mut outputs.to_client;
        match (self.side.place, self.side.telnet) {
            (Place::Holding, State::Clear) => self.hold(octets, to_client),
            (Place::Flowing(start), State::Clear) => self.flow(start, octets, to_client),
            (Place::PassingAtOnce | Place::Ended, _) => to_client.pass(octets),
            _ => self.command(octets, outputs),
        }
    }

    /// The next octets of a Telnet command: the server is the sender that gets the answers.
    fn command(&mut self, octets: &[u8], outputs: &mut Outputs) -> Step {
        let (on, back) = (&mut outputs.to_client, &mut outputs.to_server);
        match self.side.command(octets, on, back) {
            Some(step) => step,
            None if self.side.holds_most() => self.let_go(DOUBLED, &mut outputs.to_client),
            None => self.side.take_doubled(&mut outputs.to_client),
        }
    }

    fn hold(&mut self, octets: &[u8], to_client: &mut Output) -> Step {
        match self.side.reach(octets) {
            Reach::Unfinished => {
                self.side.hold(Text::run(octets));
                Step::took(octets.len())
            }
            Reach::Command(place) => {
                self.side.hold(Text::run(&octets[..place]));
                self.side.telnet = State::Iac;
                Step::took(place + 1)
            }
            Reach::End(lf) => self.finish_line(&octets[..lf], to_client),
            Reach::TooLong(count) => self.let_go(Text::run(&octets[..count]), to_client),
        }
    }

    /// "When the 512th octet is not LF, the held octets are let go unchanged."
    fn let_go(&mut self, last: Text, to_client: &mut Output) -> Step {
        if self.side.held().length() + last.length() > to_client.room() {
            return self.side.wait_before_last(last);
        }
        self.side.let_go(last, to_client);
        Step::took(last.octets.len())
    }

    /// The LF of a line judged whole, of which `last` are the last octets before it. A 227
    /// becomes a 229, or a 425, if it answers a translated EPSV "and no earlier line belongs to its
    /// reply": none is unfinished. "All other server lines pass."
    fn finish_line(&mut self, last: &[u8], to_client: &mut Output) -> Step {
        let text = self.side.join(last);
        let content = content(text.octets);
        let end = line_end(&self.owed, Role::of(content, self.unfinished));
        let made = match end.removed {
            Some(Owed::TranslatedEpsv) if self.unfinished.is_none() => {
                extended_passive(content, self.only)
            }
            _ => None,
        };
        let given = made.map_or(Given::Line, Given::Made);
        if given.length(text) + end.answers > to_client.room() {
            self.side.keep(last);
            return Step::waits_after(last.len());
        }
        to_client.write_line(given, text);
        self.pass_line_end(end, to_client);
        Step::took(last.len() + 1)
    }

    /// "The rest of that line flows unchanged", and it "counts when its LF passes".
    fn flow(&mut self, start: Start, octets: &[u8], to_client: &mut Output) -> Step {
        let Some(stop) = find_stop(to_client.reach(octets)) else {
            return to_client.pass(octets);
        };
        if octets[stop] == IAC {
            to_client.write(&octets[..stop]);
            self.side.telnet = State::Iac;
            return Step::took(stop + 1);
        }
        let end = line_end(&self.owed, Role::of(&start, self.unfinished));
        if stop + 1 + end.answers > to_client.room() {
            to_client.write(&octets[..stop]);
            return Step::waits_after(stop);
        }
        to_client.write(&octets[..=stop]);
        self.pass_line_end(end, to_client);
        Step::took(stop + 1)
    }

    fn pass_line_end(&mut self, end: LineEnd, to_client: &mut Output) {
        self.side.go_on(Place::Holding);
        self.unfinished = end.unfinished;
        if end.removed.is_some() {
            self.owed.pop();
        }
        self.settle(to_client);
    }

    /// How many octets go to the client when a client octet puts a kind on the queue. Behind
    /// others it changes nothing at the head, and the queue is settled.
    pub fn due(&self, kind: Owed) -> usize {
        match kind {
            _ if !self.owed.is_empty() => 0,
            Owed::Own(answer) if !self.answers_wait() => answer.line().len(),
            Owed::Auth => self.side.left(),
            _ => 0,
        }
    }

    /// Puts a kind on the queue, and what is due goes to the client.
    pub fn owe(&mut self, kind: Owed, to_client: &mut Output) {
        self.owed.push(kind);
        self.settle(to_client);
    }

    /// "After each octet, the gateway's own answers at the head of the queue are written in
    /// order." "When AUTH reaches the head, held server octets pass and all later ones pass at
    /// once", and between them an unfinished command: this waits for no reply to end. AUTH stays at the head, and nothing comes after it.
    fn settle(&mut self, to_client: &mut Output) {
        loop {
            match self.owed.head() {
                Some(Owed::Own(answer)) if !self.answers_wait() => {
                    to_client.write(answer.line());
                    self.owed.pop();
                }
                Some(Owed::Auth) if self.side.place != Place::Ended => {
                    return self.side.leave(Place::PassingAtOnce, to_client);
                }
                _ => return,
            }
        }
    }

    /// "Unless a reply is unfinished, a server line is flowing, or the server direction has
    /// ended." Held octets do not keep own answers back.
    fn answers_wait(&self) -> bool {
        self.unfinished.is_some() || matches!(self.side.place, Place::Flowing(_) | Place::Ended)
    }
}

/// "First digit 2 to 5 also removes the first owed kind, unless none is owed or it is the
/// gateway's own answer." Where a line leaves no reply unfinished, nothing keeps back the own
/// answers that are then first.
fn line_end(owed: &Queue, role: Role) -> LineEnd {
    let unfinished = role.unfinished();
    let removed = match owed.head() {
        Some(Owed::Own(_)) => None,
        head => head.filter(|_| role.ends_final()),
    };
    let answers = match unfinished {
        Some(_) => 0,
        None => owed.own_answers(usize::from(removed.is_some())),
    };
    LineEnd {
        unfinished,
        removed,
        answers,
    }
}
