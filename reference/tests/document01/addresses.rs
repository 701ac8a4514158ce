//! IPv6 text, next to the standard library's reading of it.

use std::net::Ipv6Addr;

use reference::address::read;

use crate::random::Random;

/// The standard library has the same rules but for leading zeros in dotted numbers.
#[track_caller]
fn check_as_standard(text: &str) {
    let standard = text.parse::<Ipv6Addr>().ok().map(|a| a.octets());
    assert_eq!(read(text.as_bytes()), standard, "{text}");
}

#[test]
fn texts_of_every_form() {
    let good = [
        "::",
        "::1",
        "1::",
        "1:2:3:4:5:6:7:8",
        "1:2:3:4:5:6:7::",
        "::2:3:4:5:6:7:8",
        "1:2:3::5:6:7:8",
        "0001:00:F:fFfF::",
        "1:2:3:4:5:6:1.2.3.4",
        "1:2:3:4:5::1.2.3.4",
        "::2:3:4:5:6:1.2.3.4",
        "::1.2.3.4",
        "::255.255.255.255",
        "::0.0.0.0",
    ];
    for text in good {
        assert!(read(text.as_bytes()).is_some(), "{text}");
        check_as_standard(text);
    }
}

#[test]
fn texts_that_are_refused() {
    let bad = [
        "",
        ":",
        ":::",
        "::::",
        ":1",
        "1:",
        "1",
        "1::2::3",
        "1:::2",
        ":1::",
        "::1:",
        "1:2:3:4:5:6:7",
        "1:2:3:4:5:6:7:8:9",
        "1:2:3:4::5:6:7:8",
        "::1:2:3:4:5:6:7:8",
        "1:2:3:4:5:6:7:8::",
        "12345::",
        "00001::",
        "g::",
        "1.2.3.4",
        "1.2.3.4::",
        "::1.2.3.4:5",
        "1:2:3:4:5:6:7:1.2.3.4",
        "1:2:3:4:5:6::1.2.3.4",
        "1:2:3:4:5:1.2.3.4",
        "::1.2.3",
        "::1.2.3.4.5",
        "::1.2.3.",
        "::.1.2.3",
        "::1..2.3",
        "::1.2.3.256",
        "::1.2.3.a",
        "::1%0",
        "::1/64",
        "[::1]",
        " ::1",
        "::1 ",
        "::-1",
        "::+1",
        "::0x1",
    ];
    for text in bad {
        assert_eq!(read(text.as_bytes()), None, "{text}");
        check_as_standard(text);
    }
    // Four digits are too many in a dotted number, whatever its value.
    assert_eq!(read(b"::1.2.3.0004"), None);
    assert_eq!(read(b"::1.2.3.\xb2"), None);
    assert_eq!(read(b"\xff::"), None);
}

/// "Dotted numbers of 1 to 3 digits": leading zeros are among them, unlike elsewhere.
#[test]
fn leading_zeros_in_dotted_numbers() {
    let plain = read(b"::1.2.3.4");
    assert!(plain.is_some());
    assert_eq!(read(b"::001.002.003.004"), plain);
    assert_eq!(read(b"::01.2.003.04"), plain);
    assert_eq!(read(b"::000.00.0.0"), Some([0; 16]));
}

#[test]
fn every_short_text() {
    let alphabet = *b"1f:.";
    let mut texts = vec![String::new()];
    for _ in 0..8 {
        texts = texts
            .iter()
            .flat_map(|text| alphabet.map(|octet| format!("{text}{}", char::from(octet))))
            .collect();
        for text in &texts {
            check_as_standard(text);
        }
    }
}

#[test]
fn generated_texts() {
    let mut random = Random::new(6);
    let mut good = 0;
    for _ in 0..200_000 {
        let mut text = generated(&mut random);
        if random.one_in(3) {
            text = damaged(&mut random, text);
        }
        if has_leading_zero_in_dotted(&text) {
            continue;
        }
        check_as_standard(&text);
        good += usize::from(read(text.as_bytes()).is_some());
    }
    assert!(good > 50_000, "only {good} good texts");
}

/// Groups around at most one `::`, often as many as there may be, with or without a dotted end.
fn generated(random: &mut Random) -> String {
    let dotted = random.one_in(4);
    let whole = if dotted { 6 } else { 8 };
    let count = if random.one_in(3) {
        whole
    } else {
        random.below(10)
    };
    let mut parts: Vec<String> = (0..count).map(|_| group(random)).collect();
    if dotted {
        let numbers: Vec<String> = (0..4).map(|_| random.below(260).to_string()).collect();
        parts.push(numbers.join("."));
    }
    if random.one_in(3) {
        return parts.join(":");
    }
    let gap = random.below(parts.len() + 1);
    format!("{}::{}", parts[..gap].join(":"), parts[gap..].join(":"))
}

fn group(random: &mut Random) -> String {
    let value = random.below(65536) >> (4 * random.below(4));
    match random.below(3) {
        0 => format!("{value:x}"),
        1 => format!("{value:X}"),
        _ => format!("{value:04x}"),
    }
}

/// One octet replaced, put in or taken out.
fn damaged(random: &mut Random, text: String) -> String {
    let mut octets = text.into_bytes();
    let octet = *random.pick(&[&b':', &b'.', &b'0', &b'9', &b'a', &b'g', &b'%']);
    let place = random.below(octets.len() + 1);
    match random.below(3) {
        0 if place < octets.len() => octets[place] = octet,
        1 if place < octets.len() => drop(octets.remove(place)),
        _ => octets.insert(place, octet),
    }
    String::from_utf8(octets).expect("one octet for each character")
}

fn has_leading_zero_in_dotted(text: &str) -> bool {
    let last = text.rsplit(':').next().unwrap_or(text);
    let numbers: Vec<&str> = last.split('.').collect();
    numbers.len() > 1 && numbers.iter().any(|n| n.len() > 1 && n.starts_with('0'))
}

/// The same address in every one of its texts: the value counts, not the writing.
#[test]
fn texts_of_one_value() {
    let mut random = Random::new(7);
    for _ in 0..20_000 {
        let octets: [u8; 16] = std::array::from_fn(|_| {
            let octet = random.octet();
            if random.one_in(2) {
                0
            } else {
                octet
            }
        });
        let address = Ipv6Addr::from(octets);
        let groups = address.segments().map(|group| format!("{group:04X}"));
        let [.., a, b, c, d] = octets;
        let dotted = format!("{}:{a:03}.{b:03}.{c:03}.{d:03}", groups[..6].join(":"));
        for text in [address.to_string(), groups.join(":"), dotted] {
            assert_eq!(read(text.as_bytes()), Some(octets), "{text}");
        }
    }
}
