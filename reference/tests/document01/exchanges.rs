//! "Twelve exchanges to be proved. All on after the greeting."

use crate::talk::{Step::*, *};

#[test]
fn twelve_exchanges() {
    let zero_port = "227 Entering Passive Mode (192,0,2,31,0,0)\r\n";
    let foreign = "EPRT |1|192.0.2.31|5282|\r\n";
    let longest = format!("EPSV{}\r\n", " ".repeat(506));
    let too_long = format!("EPSV{}\r\n", " ".repeat(507));
    assert_eq!((longest.len(), too_long.len()), (512, 513));
    let exchanges: [&[Expected]; 13] = [
        &[(Client("EPSV\r\n"), "PASV\r\n", "")],
        &[(Client("epsv 02\n"), "PASV\r\n", "")],
        &[(Client("EPSV 1\r\n"), "", NOT_SUPPORTED)],
        &[(Client("EPSV all\r\n"), "", NOT_IMPLEMENTED)],
        &[
            (Client("EPSV\r\n"), "PASV\r\n", ""),
            (Server(PASSIVE), "", EXTENDED_PASSIVE),
        ],
        &[
            (Client("EPSV\r\n"), "PASV\r\n", ""),
            (Server(zero_port), "", zero_port),
        ],
        &[(
            Client("EPRT |2|2001:db8:2::31|5282|\r\n"),
            "PORT 192,0,2,31,20,162\r\n",
            "",
        )],
        &[(Client(foreign), foreign, "")],
        &[
            (Client("ALGS DISABLE64\r\n"), "", "216 NONE\r\n"),
            (Client("EPSV\r\n"), "EPSV\r\n", ""),
        ],
        &[(Client(&longest), "PASV\r\n", "")],
        &[(Client(&too_long), &too_long, "")],
        &[
            (Client("AUTH TLS\r\n"), "AUTH TLS\r\n", ""),
            (Client("EPSV\r\n"), "EPSV\r\n", ""),
        ],
        &[(Client("EPS"), "", ""), (ClientEnd, "EPS", "")],
    ];
    for exchange in exchanges {
        check_greeted(ALL_ON, exchange);
    }
}
