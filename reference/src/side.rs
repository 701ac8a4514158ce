//! The unfinished line of a direction, and the Telnet layer below it.

use crate::lines::{find_iac, find_stop, LONGEST_JUDGED_WHOLE};
use crate::output::{Output, Step, Text};
use crate::telnet::{Does, State, IAC};

/// A line of one octet more is let go at its last.
const MOST_HELD: usize = LONGEST_JUDGED_WHOLE - 1;

/// The first octets of a line that flows: enough to tell AUTH and a space, or a code and what
/// follows it.
pub type Start = [u8; 5];

/// Where a direction stands.
#[derive(Clone, Copy, Debug, PartialEq, Eq)]
pub enum Place {
    /// In a line that may yet be judged whole; its octets are held.
    Holding,
    /// In a line longer than that.
    Flowing(Start),
    PassingAtOnce,
    Ended,
}

/// How far octets take a line that is held.
pub enum Reach {
    /// They leave it unfinished, and may be held.
    Unfinished,
    /// The place of the LF of a line judged whole.
    End(usize),
    /// The place of a 255 before the line's end.
    Command(usize),
    /// How many of them lead to the 512th octet of the line, which is not LF.
    TooLong(usize),
}

/// A data octet 255.
pub const DOUBLED: Text = Text {
    octets: &[IAC],
    doubled: 1,
};

#[derive(Clone, Debug)]
pub struct Side {
    pub place: Place,
    pub telnet: State,
    /// "All its octets removed are counted in the record, for each direction in 32 bits that
    /// wrap."
    removed: u32,
    held: [u8; MOST_HELD],
    count: usize,
    /// How many of the held octets are 255.
    doubled: usize,
}

impl Side {
    pub fn fresh() -> Side {
        Side {
            place: Place::Holding,
            telnet: State::Clear,
            removed: 0,
            held: [0; MOST_HELD],
            count: 0,
            doubled: 0,
        }
    }

    pub fn removed(&self) -> u32 {
        self.removed
    }

    pub fn held(&self) -> Text<'_> {
        Text {
            octets: &self.held[..self.count],
            doubled: self.doubled,
        }
    }

    /// Whether one octet more is the 512th.
    pub fn holds_most(&self) -> bool {
        self.count == MOST_HELD
    }

    pub fn hold(&mut self, text: Text) {
        self.held[self.count..][..text.octets.len()].copy_from_slice(text.octets);
        self.count += text.octets.len();
        self.doubled += text.doubled;
    }

    /// Goes on at a place with nothing held and no command unfinished.
    pub fn go_on(&mut self, place: Place) {
        self.count = 0;
        self.doubled = 0;
        self.place = place;
        self.telnet = State::Clear;
    }

    /// "A line of up to 512 octets, LF included, is judged whole."
    pub fn reach(&self, octets: &[u8]) -> Reach {
        let most = LONGEST_JUDGED_WHOLE - self.count;
        let within = &octets[..octets.len().min(most)];
        match find_stop(within) {
            Some(place) if within[place] == IAC => Reach::Command(place),
            Some(lf) => Reach::End(lf),
            None if within.len() == most => Reach::TooLong(most),
            None => Reach::Unfinished,
        }
    }

    /// The octets of a line before its LF, of which `last`, a run without 255, are the last: as
    /// they arrived if they are all, else behind those held.
    pub fn join<'line>(&'line mut self, last: &'line [u8]) -> Text<'line> {
        if self.count == 0 {
            return Text::run(last);
        }
        self.hold(Text::run(last));
        self.held()
    }

    /// Holds the octets that `join` was given, if it does not hold them yet.
    pub fn keep(&mut self, last: &[u8]) {
        if self.count == 0 {
            self.hold(Text::run(last));
        }
    }

    /// The first octets of a line of at least 512, of which `last` are the last.
    pub fn start(&self, last: Text) -> Start {
        let mut octets = self.held().octets.iter().chain(last.octets).copied();
        std::array::from_fn(|_| octets.next().unwrap_or_default())
    }

    /// "When the 512th octet is not LF, the held octets are let go unchanged": `last` are the
    /// octets up to that one.
    pub fn let_go(&mut self, last: Text, output: &mut Output) {
        let start = self.start(last);
        output.write_text(self.held());
        output.write_text(last);
        self.go_on(Place::Flowing(start));
    }

    /// The 512th octet, the last of `last`, waits: those before it are held. Of a doubled 255 it
    /// is the second octet, and there are none.
    pub fn wait_before_last(&mut self, last: Text) -> Step {
        let before = last.octets.len() - 1;
        self.hold(Text::run(&last.octets[..before]));
        Step::waits_after(before)
    }

    /// The second octet of a doubled 255, which is not the 512th of its line.
    pub fn take_doubled(&mut self, output: &mut Output) -> Step {
        if self.place == Place::Holding {
            self.hold(DOUBLED);
        } else if !output.write_if_it_fits(&[IAC, IAC]) {
            return Step::waits_after(0);
        }
        self.telnet = State::Clear;
        Step::took(1)
    }

    /// Takes the next octets of a command: this direction's output gets what passes, its sender's
    /// an answer. The second octet of a doubled 255 is left to the line.
    pub fn command(&mut self, octets: &[u8], on: &mut Output, back: &mut Output) -> Option<Step> {
        if self.telnet == State::Within {
            return Some(self.remove(octets));
        }
        let (state, does) = self.telnet.take(octets[0]);
        let fits = match does {
            Does::Data(_) => return None,
            Does::Nothing => true,
            Does::Answers(answer) => back.write_if_it_fits(&answer),
            Does::Passes(command) => on.write_if_it_fits(&command),
            Does::Removes(count) => {
                self.count_removed(count);
                true
            }
        };
        if !fits {
            return Some(Step::waits_after(0));
        }
        self.telnet = state;
        Some(Step::took(1))
    }

    /// "A subnegotiation is removed up to its end": the octets up to a 255 in it.
    fn remove(&mut self, octets: &[u8]) -> Step {
        let taken = match find_iac(octets) {
            Some(place) => {
                self.telnet = State::WithinIac;
                place + 1
            }
            None => octets.len(),
        };
        self.count_removed(taken as u32);
        Step::took(taken)
    }

    fn count_removed(&mut self, octets: u32) {
        self.removed = self.removed.wrapping_add(octets);
    }

    /// What passes where this direction ends or comes to pass at once: the held octets, and after
    /// them "any other command still unfinished".
    pub fn left(&self) -> usize {
        self.held().length() + self.telnet.unfinished().len()
    }

    /// Lets that pass, and goes on at a place.
    pub fn leave(&mut self, place: Place, output: &mut Output) {
        output.write_text(self.held());
        output.write(self.telnet.unfinished());
        self.go_on(place);
    }

    /// "Ending a direction passes its held octets on unchanged and owes nothing for them; if
    /// they do not fit, answer 2 and nothing changes." Says whether they fit.
    pub fn end(&mut self, output: &mut Output) -> bool {
        let fits = self.left() <= output.room();
        if fits {
            self.leave(Place::Ended, output);
        }
        fits
    }
}

/// What stood in the place of the held octets before does not count.
impl PartialEq for Side {
    fn eq(&self, other: &Side) -> bool {
        self.place == other.place
            && self.telnet == other.telnet
            && self.removed == other.removed
            && self.held().octets == other.held().octets
    }
}

impl Eq for Side {}

#[cfg(test)]
mod tests {
    use super::*;

    /// By single octets and by runs.
    #[test]
    fn the_count_of_removed_octets_wraps() {
        let (mut on, mut back) = ([], []);
        let (mut on, mut back) = (Output::new(&mut on), Output::new(&mut back));
        let mut side = Side::fresh();
        side.telnet = State::Iac;
        side.removed = u32::MAX;
        side.command(&[250], &mut on, &mut back);
        assert_eq!((side.telnet, side.removed()), (State::Within, 1));
        side.removed = u32::MAX - 2;
        side.command(b"abcd\xffx", &mut on, &mut back);
        assert_eq!((side.telnet, side.removed()), (State::WithinIac, 2));
        side.removed = u32::MAX;
        side.command(&[240], &mut on, &mut back);
        assert_eq!((side.telnet, side.removed()), (State::Clear, 0));
    }
}
