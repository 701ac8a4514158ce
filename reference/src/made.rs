//! Lines the gateway makes. "Lines the gateway makes end with CR LF; numbers in them are decimal
//! without leading zeros."

use crate::output::{digits, Output};

const PASV: &[u8] = b"PASV\r\n";
const PORT: &[u8] = b"PORT ";
const EXTENDED_PASSIVE: &[u8] = b"229 Entering Extended Passive Mode (|||";
const EXTENDED_PASSIVE_END: &[u8] = b"|)\r\n";
const NO_CONNECTION: &[u8] = b"425 Can't open data connection.\r\n";

#[derive(Clone, Copy, Debug, PartialEq, Eq)]
pub enum MadeLine {
    Pasv,
    /// "`PORT` with the mapped address and the port's high and low octet."
    Port([u8; 6]),
    /// "`229 Entering Extended Passive Mode (|||port|)`."
    ExtendedPassive(u16),
    /// "`425 Can't open data connection.` instead of the 229."
    NoConnection,
}

impl MadeLine {
    pub fn length(self) -> usize {
        match self {
            MadeLine::Pasv => PASV.len(),
            MadeLine::Port(numbers) => {
                let digits = numbers.map(|number| digits(number.into()));
                // A comma or CR LF behind each number.
                PORT.len() + digits.iter().sum::<usize>() + numbers.len() + 1
            }
            MadeLine::ExtendedPassive(port) => {
                EXTENDED_PASSIVE.len() + digits(port) + EXTENDED_PASSIVE_END.len()
            }
            MadeLine::NoConnection => NO_CONNECTION.len(),
        }
    }

    pub fn write(self, output: &mut Output) {
        match self {
            MadeLine::Pasv => output.write(PASV),
            MadeLine::Port([first, others @ ..]) => {
                output.write(PORT);
                output.write_number(first.into());
                for number in others {
                    output.write(b",");
                    output.write_number(number.into());
                }
                output.write(b"\r\n");
            }
            MadeLine::ExtendedPassive(port) => {
                output.write(EXTENDED_PASSIVE);
                output.write_number(port);
                output.write(EXTENDED_PASSIVE_END);
            }
            MadeLine::NoConnection => output.write(NO_CONNECTION),
        }
    }

    /// The line in octets of its own.
    pub fn to_vec(self) -> Vec<u8> {
        let mut line = vec![0; self.length()];
        self.write(&mut Output::new(&mut line));
        line
    }
}

#[cfg(test)]
mod tests {
    use super::*;

    fn check(line: MadeLine, expected: &str) {
        let mut buffer = [b'?'; 64];
        let mut output = Output::new(&mut buffer);
        line.write(&mut output);
        assert_eq!(output.written(), line.length());
        assert_eq!(buffer[..expected.len()], *expected.as_bytes());
        assert_eq!(line.length(), expected.len());
    }

    #[test]
    fn lines_are_as_long_as_they_say() {
        check(MadeLine::Pasv, "PASV\r\n");
        check(
            MadeLine::NoConnection,
            "425 Can't open data connection.\r\n",
        );
        for port in 0..=u16::MAX {
            let [high, low] = port.to_be_bytes();
            check(
                MadeLine::Port([low, 0, high, 10, high, low]),
                &format!("PORT {low},0,{high},10,{high},{low}\r\n"),
            );
            check(
                MadeLine::ExtendedPassive(port),
                &format!("229 Entering Extended Passive Mode (|||{port}|)\r\n"),
            );
        }
    }
}
