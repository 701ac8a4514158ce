//! The queue of replies owed.

/// "A queue of replies owed, at most 16."
pub const MOST_OWED: usize = 16;

/// A kind on the queue.
#[derive(Clone, Copy, Debug, PartialEq, Eq)]
pub enum Owed {
    Plain,
    TranslatedEpsv,
    Own(OwnAnswer),
    Auth,
}

/// "An answer of the gateway's own (522, 504, four of 216)", in place of the server's.
#[derive(Clone, Copy, Debug, PartialEq, Eq)]
pub enum OwnAnswer {
    ProtocolNotSupported,
    ParameterNotImplemented,
    StateNone,
    StateEpsv,
    StateEprt,
    StateEpsvEprt,
}

impl OwnAnswer {
    /// "`216` and NONE, EPSV, EPRT or EPSVEPRT for the state then": when the ALGS line is
    /// finished, whenever the answer gets out.
    pub fn state(epsv: bool, eprt: bool) -> OwnAnswer {
        match (epsv, eprt) {
            (false, false) => OwnAnswer::StateNone,
            (true, false) => OwnAnswer::StateEpsv,
            (false, true) => OwnAnswer::StateEprt,
            (true, true) => OwnAnswer::StateEpsvEprt,
        }
    }

    pub fn line(self) -> &'static [u8] {
        match self {
            OwnAnswer::ProtocolNotSupported => b"522 Network protocol not supported\r\n",
            OwnAnswer::ParameterNotImplemented => {
                b"504 Command not implemented for that parameter\r\n"
            }
            OwnAnswer::StateNone => b"216 NONE\r\n",
            OwnAnswer::StateEpsv => b"216 EPSV\r\n",
            OwnAnswer::StateEprt => b"216 EPRT\r\n",
            OwnAnswer::StateEpsvEprt => b"216 EPSVEPRT\r\n",
        }
    }
}

/// A ring of the kinds owed.
#[derive(Clone, Debug)]
pub struct Queue {
    kinds: [Owed; MOST_OWED],
    first: usize,
    count: usize,
}

impl Queue {
    /// "A fresh session owes one: the greeting."
    pub fn fresh() -> Queue {
        Queue {
            kinds: [Owed::Plain; MOST_OWED],
            first: 0,
            count: 1,
        }
    }

    pub fn is_empty(&self) -> bool {
        self.count == 0
    }

    pub fn is_full(&self) -> bool {
        self.count == MOST_OWED
    }

    pub fn head(&self) -> Option<Owed> {
        self.from(0).next()
    }

    /// The kinds behind the first `passed`.
    fn from(&self, passed: usize) -> impl Iterator<Item = Owed> + '_ {
        (passed..self.count).map(|index| self.kinds[(self.first + index) % MOST_OWED])
    }

    /// Octets of the own answers that stand next to each other behind the first `passed` kinds.
    pub fn own_answers(&self, passed: usize) -> usize {
        let answers = self.from(passed).map_while(|kind| match kind {
            Owed::Own(answer) => Some(answer.line().len()),
            _ => None,
        });
        answers.sum()
    }

    pub fn push(&mut self, kind: Owed) {
        assert!(!self.is_full(), "number 1 comes before a kind more");
        self.kinds[(self.first + self.count) % MOST_OWED] = kind;
        self.count += 1;
    }

    pub fn pop(&mut self) {
        assert!(!self.is_empty(), "there is a head to remove");
        self.first = (self.first + 1) % MOST_OWED;
        self.count -= 1;
    }
}

/// Queues are equal that owe the same, wherever it stands in the ring.
impl PartialEq for Queue {
    fn eq(&self, other: &Queue) -> bool {
        self.from(0).eq(other.from(0))
    }
}

impl Eq for Queue {}
