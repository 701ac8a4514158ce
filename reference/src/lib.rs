//! A reference for the FTP gateway of document 01: an ordinary gateway in safe Rust.
//!
//! It is written to be read next to document 01 and to be compared, call by call, with any other
//! gateway that follows the same rules. Of document 02 these requests are built: 1, multi-line
//! replies end by their own code; 2, a Telnet layer below the lines; and 4, foreign addresses
//! refused. Quoted sentences are document 01's, or a request's where it replaces them.
//! It takes octets by lines and by runs where document 01 speaks of single ones: a step measures
//! what the octet that ends it writes, so it stops just where that octet would, and nothing is
//! taken back.
//!
//! - [`lines`]: where a run of octets stops, content, argument, numbers
//! - [`address`]: IPv6 text
//! - [`commands`]: what a client line becomes and what is owed for it
//! - [`replies`]: what a server line is to its reply, and when it becomes a 229 or a 425
//! - [`made`]: the lines that the gateway makes
//! - [`queue`]: the replies owed
//! - [`output`]: the lent buffers
//! - [`telnet`]: which octets are data, and what becomes of commands
//! - `side`, `client`, `server`: the unfinished line and command of a direction, and the steps of
//!   each
//! - [`gateway`]: setup, arrivals and ends
//! - [`files`]: session files and the report on them
//! - [`calls`]: a list of calls in octets, and its results in octets

#![forbid(unsafe_code)]

pub mod address;
pub mod calls;
mod client;
pub mod commands;
pub mod files;
pub mod gateway;
pub mod lines;
pub mod made;
pub mod output;
pub mod queue;
pub mod replies;
mod server;
mod side;
pub mod telnet;

pub use gateway::{
    Gateway, Outcome, BAD_FLAGS, CLIENT, DONE, HAS_ENDED, NOT_LIVE, NO_DIRECTION, NO_ROOM,
    QUEUE_FULL, SERVER,
};
