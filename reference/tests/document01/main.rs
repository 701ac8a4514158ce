//! Document 01's rules, run, with requests 1, 2 and 4 of document 02.

mod addresses;
mod answers;
mod calls;
mod client_lines;
mod cuts;
mod errors;
mod exchanges;
mod files;
mod layer;
mod multi_line;
mod offsets;
mod ports;
mod queue;
mod random;
mod server_lines;
mod strict;
mod talk;
mod telnet;
