//! The tables, in Markdown.

use crate::instructions::Instructions;
use crate::timing::Times;
use crate::workloads::Workload;

/// A whole number with commas at the thousands.
pub fn whole(value: f64) -> String {
    let digits = format!("{value:.0}");
    let mut text = String::new();
    for (place, digit) in digits.chars().enumerate() {
        if place > 0 && (digits.len() - place) % 3 == 0 {
            text.push(',');
        }
        text.push(digit);
    }
    text
}

/// A number to two digits at least.
fn number(value: f64) -> String {
    if value < 0.995 {
        format!("{value:.2}")
    } else if value < 9.95 {
        format!("{value:.1}")
    } else {
        whole(value)
    }
}

/// How often the second fits into the first: to two places where the two are near each other.
fn ratio(ours: f64, reference: f64) -> String {
    let ratio = ours / reference;
    if ratio < 9.995 {
        format!("{ratio:.2}")
    } else {
        whole(ratio)
    }
}

fn row(cells: &[String]) -> String {
    format!("| {} |\n", cells.join(" | "))
}

/// A heading whose first column is text and whose others are numbers.
fn heading(names: &[&str]) -> String {
    let names: Vec<String> = names.iter().map(|name| name.to_string()).collect();
    format!("{}|---|{}\n", row(&names), "---:|".repeat(names.len() - 1))
}

pub fn times_heading() -> String {
    heading(&[
        "workload",
        "octets a call",
        "ours, ns a call",
        "reference, ns a call",
        "ours / reference",
        "memcpy, ns a call",
        "ours, ns an octet",
        "reference, ns an octet",
    ])
}

pub fn times_row(workload: &Workload, times: &Times) -> String {
    let octets = workload.octets() as f64 / workload.calls() as f64;
    row(&[
        workload.name.to_string(),
        whole(octets),
        number(times.ours),
        number(times.reference),
        ratio(times.ours, times.reference),
        number(times.memcpy),
        number(times.ours / octets),
        number(times.reference / octets),
    ])
}

pub fn instructions_heading() -> String {
    heading(&[
        "workload",
        "ours, instructions a call",
        "reference, instructions a call",
        "ours / reference",
        "ours, instructions an octet",
        "reference, instructions an octet",
    ])
}

pub fn instructions_row(workload: &Workload, counts: &Instructions) -> String {
    let octets = workload.octets() as f64 / workload.calls() as f64;
    row(&[
        workload.name.to_string(),
        number(counts.ours),
        number(counts.reference),
        ratio(counts.ours, counts.reference),
        number(counts.ours / octets),
        number(counts.reference / octets),
    ])
}

#[cfg(test)]
mod tests {
    use super::*;

    #[test]
    fn numbers_have_the_digits_that_they_are_worth() {
        let values = [0.0312, 0.999, 1.04, 9.96, 42.4, 999.9, 12345.6, 1234567.0];
        let texts = [
            "0.03",
            "1.0",
            "1.0",
            "10",
            "42",
            "1,000",
            "12,346",
            "1,234,567",
        ];
        assert_eq!(values.map(number), texts);
        assert_eq!([ratio(21.0, 20.0), ratio(900.0, 7.0)], ["1.05", "129"]);
    }
}
