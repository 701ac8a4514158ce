//! The client's direction: its lines, judged by the switches and addresses.

use crate::commands::{flowing_auth, judge, Addresses, Switches};
use crate::lines::find_stop;
use crate::output::{Outputs, Step, Text};
use crate::queue::Owed;
use crate::server::Server;
use crate::side::{Place, Reach, Side, DOUBLED};
use crate::telnet::{State, IAC};

#[derive(Clone, Debug, PartialEq, Eq)]
pub struct Client {
    pub side: Side,
    addresses: Addresses,
    switches: Switches,
}

impl Client {
    pub fn fresh(addresses: Addresses, switches: Switches) -> Client {
        Client {
            side: Side::fresh(),
            addresses,
            switches,
        }
    }

    /// Takes octets up to the end of the line, the 512th of it, a 255, or the first that has to
    /// wait. Numbers 1 and 6 stand before: the queue has room for a kind, and the side has not
    /// ended.
    pub fn step(&mut self, octets: &[u8], server: &mut Server, outputs: &mut Outputs) -> Step {
        match (self.side.place, self.side.telnet) {
            (Place::Holding, State::Clear) => self.hold(octets, server, outputs),
            (Place::Flowing(_), State::Clear) => self.flow(octets, server, outputs),
            (Place::PassingAtOnce | Place::Ended, _) => outputs.to_server.pass(octets),
            _ => self.command(octets, server, outputs),
        }
    }

    /// The next octets of a Telnet command.
    fn command(&mut self, octets: &[u8], server: &mut Server, outputs: &mut Outputs) -> Step {
        let (on, back) = (&mut outputs.to_server, &mut outputs.to_client);
        match self.side.command(octets, on, back) {
            Some(step) => step,
            None if self.side.holds_most() => self.let_go(DOUBLED, server, outputs),
            None => self.side.take_doubled(&mut outputs.to_server),
        }
    }

    fn hold(&mut self, octets: &[u8], server: &mut Server, outputs: &mut Outputs) -> Step {
        match self.side.reach(octets) {
            Reach::Unfinished => {
                self.side.hold(Text::run(octets));
                Step::took(octets.len())
            }
            Reach::Command(place) => {
                self.side.hold(Text::run(&octets[..place]));
                self.side.telnet = State::Iac;
                Step::took(place + 1)
            }
            Reach::End(lf) => self.finish_line(&octets[..lf], server, outputs),
            Reach::TooLong(count) => self.let_go(Text::run(&octets[..count]), server, outputs),
        }
    }

    /// The LF of a line judged whole, of which `last` are the last octets before it. "Every
    /// finished client line before AUTH, an empty one included, and AUTH itself (owed when
    /// recognised) puts one kind on the queue."
    fn finish_line(&mut self, last: &[u8], server: &mut Server, outputs: &mut Outputs) -> Step {
        let text = self.side.join(last);
        let judged = judge(text.octets, &self.addresses, self.switches);
        if judged.given.length(text) > outputs.to_server.room()
            || server.due(judged.owed) > outputs.to_client.room()
        {
            self.side.keep(last);
            return Step::waits_after(last.len());
        }
        outputs.to_server.write_line(judged.given, text);
        self.side.go_on(Place::Holding);
        self.switches = judged.switches;
        self.owe(judged.owed, server, outputs);
        Step::took(last.len() + 1)
    }

    /// The 512th octet, the last of `last`, is not LF. "AUTH, with or without argument, passes;
    /// from there every client octet passes at once. This holds for a flowing line too if its
    /// first five octets are AUTH and a space."
    fn let_go(&mut self, last: Text, server: &mut Server, outputs: &mut Outputs) -> Step {
        let is_auth = flowing_auth(&self.side.start(last));
        let due = if is_auth { server.due(Owed::Auth) } else { 0 };
        if self.side.held().length() + last.length() > outputs.to_server.room()
            || due > outputs.to_client.room()
        {
            return self.side.wait_before_last(last);
        }
        self.side.let_go(last, &mut outputs.to_server);
        if is_auth {
            self.owe(Owed::Auth, server, outputs);
        }
        Step::took(last.octets.len())
    }

    /// "The rest of that line flows unchanged." Its LF finishes it, so it is owed a reply.
    fn flow(&mut self, octets: &[u8], server: &mut Server, outputs: &mut Outputs) -> Step {
        let to_server = &mut outputs.to_server;
        let Some(stop) = find_stop(to_server.reach(octets)) else {
            return to_server.pass(octets);
        };
        if octets[stop] == IAC {
            to_server.write(&octets[..stop]);
            self.side.telnet = State::Iac;
            return Step::took(stop + 1);
        }
        if stop == to_server.room() {
            to_server.write(&octets[..stop]);
            return Step::waits_after(stop);
        }
        to_server.write(&octets[..=stop]);
        self.side.go_on(Place::Holding);
        self.owe(Owed::Plain, server, outputs);
        Step::took(stop + 1)
    }

    /// After AUTH "every client octet passes at once".
    fn owe(&mut self, kind: Owed, server: &mut Server, outputs: &mut Outputs) {
        server.owe(kind, &mut outputs.to_client);
        if kind == Owed::Auth {
            self.side.go_on(Place::PassingAtOnce);
        }
    }
}
