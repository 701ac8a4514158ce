//! The lent buffers.

use crate::made::MadeLine;
use crate::telnet::IAC;

/// A lent buffer, written from its front. Whoever writes has asked for the room before.
pub struct Output<'buffer> {
    buffer: &'buffer mut [u8],
    written: usize,
}

impl<'buffer> Output<'buffer> {
    pub fn new(buffer: &'buffer mut [u8]) -> Output<'buffer> {
        let written = 0;
        Output { buffer, written }
    }

    pub fn written(&self) -> usize {
        self.written
    }

    pub fn room(&self) -> usize {
        self.buffer.len() - self.written
    }

    pub fn write(&mut self, octets: &[u8]) {
        self.buffer[self.written..][..octets.len()].copy_from_slice(octets);
        self.written += octets.len();
    }

    /// Writes all or nothing, and says whether there was room.
    pub fn write_if_it_fits(&mut self, octets: &[u8]) -> bool {
        let fits = octets.len() <= self.room();
        if fits {
            self.write(octets);
        }
        fits
    }

    /// Writes octets of a line: "A doubled 255 is one data octet of a line and leaves doubled."
    pub fn write_text(&mut self, text: Text) {
        if text.doubled == 0 {
            return self.write(text.octets);
        }
        for run in text.octets.split_inclusive(|&octet| octet == IAC) {
            self.write(run);
            if run.ends_with(&[IAC]) {
                self.write(&[IAC]);
            }
        }
    }

    pub fn write_number(&mut self, number: u16) {
        let places = &mut self.buffer[self.written..][..digits(number)];
        let mut rest = number;
        for place in places.iter_mut().rev() {
            *place = b'0' + (rest % 10) as u8;
            rest /= 10;
        }
        self.written += places.len();
    }

    /// Passes on as many octets as there is room for.
    pub fn pass(&mut self, octets: &[u8]) -> Step {
        let taken = octets.len().min(self.room());
        self.write(&octets[..taken]);
        let waits = taken < octets.len();
        Step { taken, waits }
    }

    /// The octets that there is room for, and the one behind them, which may need none.
    pub fn reach<'octets>(&self, octets: &'octets [u8]) -> &'octets [u8] {
        &octets[..octets.len().min(self.room() + 1)]
    }

    /// Writes what a line gives, of which `text` stands before its LF.
    pub fn write_line(&mut self, given: Given, text: Text) {
        match given {
            Given::Line if text.doubled == 0 => {
                let text = text.octets;
                let line = &mut self.buffer[self.written..][..=text.len()];
                line[..text.len()].copy_from_slice(text);
                line[text.len()] = b'\n';
                self.written += line.len();
            }
            Given::Line => {
                self.write_text(text);
                self.write(b"\n");
            }
            Given::Made(line) => line.write(self),
            Given::Nothing => {}
        }
    }
}

/// How many digits a number has without leading zeros.
pub fn digits(number: u16) -> usize {
    let more = [10, 100, 1_000, 10_000].map(|unit| usize::from(number >= unit));
    1 + more.iter().sum::<usize>()
}

/// The buffer for each side.
pub struct Outputs<'buffer> {
    pub to_server: Output<'buffer>,
    pub to_client: Output<'buffer>,
}

/// How many octets were taken, and whether the next one waits for room.
pub struct Step {
    pub taken: usize,
    pub waits: bool,
}

impl Step {
    pub fn took(taken: usize) -> Step {
        let waits = false;
        Step { taken, waits }
    }

    pub fn waits_after(taken: usize) -> Step {
        let waits = true;
        Step { taken, waits }
    }
}

/// Octets of a line, and how many of them are 255.
#[derive(Clone, Copy, Debug)]
pub struct Text<'line> {
    pub octets: &'line [u8],
    pub doubled: usize,
}

impl Text<'_> {
    /// Octets none of which is 255.
    pub fn run(octets: &[u8]) -> Text<'_> {
        let doubled = 0;
        Text { octets, doubled }
    }

    /// How many octets are written for it.
    pub fn length(self) -> usize {
        self.octets.len() + self.doubled
    }
}

/// What a line judged whole gives.
#[derive(Clone, Copy, Debug)]
pub enum Given {
    /// Itself.
    Line,
    Made(MadeLine),
    Nothing,
}

impl Given {
    /// How many octets a line gives, of which `text` stands before its LF.
    pub fn length(self, text: Text) -> usize {
        match self {
            Given::Line => text.length() + 1,
            Given::Made(line) => line.length(),
            Given::Nothing => 0,
        }
    }
}
