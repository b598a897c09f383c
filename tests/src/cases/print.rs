//! Rows of a sequence in the syntax of the checker.

use crate::call::{Call, NO_DATE};
use crate::desk::{attributes_of, Desk, Row};

/// The digest of some bytes: h × 257 + b + 1 modulo 2^61 − 1, from 0.
pub fn digest(bytes: &[u8]) -> u64 {
    const MODULUS: u128 = 2_305_843_009_213_693_951;
    let step = |h: u128, &b: &u8| (h * 257 + u128::from(b) + 1) % MODULUS;
    bytes.iter().fold(0, step) as u64
}

/// A definition named `name` with all rows of the desk.
pub fn sequence(name: &str, title: &str, desk: &Desk) -> String {
    let mut text = format!("\n-- {title}\nabbrev pub {name} : List Row\n{name} =\n");
    for (i, row) in desk.rows.iter().enumerate() {
        text += if i == 0 { "    " } else { "    ∷ " };
        text += &print_row(row);
        text += "\n";
    }
    text + "    ∷ []\n"
}

fn print_row(row: &Row) -> String {
    if let Some(text) = print_conversion(row) {
        return text;
    }
    match row {
        Row::Made { call: Call::Initialise { c, h, d, s, v }, outcome, after, .. } => {
            let digest = if outcome.result == 0 { digest(after) } else { 0 };
            format!("begin {c} {h} {d} {s} {v} {} {digest:#X}", outcome.result)
        }
        Row::Made { call, outcome, after, .. } if outcome.result == 0 => {
            let (answer, digest_after) = (numeral(&outcome.answer), digest(after));
            match call {
                Call::Obtain { .. } => {
                    let labels = digest(&outcome.labels);
                    format!("okLabels {} {answer} {digest_after:#X} {labels:#X}", print_call(call))
                }
                _ => format!("ok {} {answer} {digest_after:#X}", print_call(call)),
            }
        }
        Row::Made { call, outcome, .. } => format!("no {} {}", print_call(call), outcome.result),
        Row::Put { patches } => format!("put {}", print_patches(patches)),
        Row::Hurt { patches, call, result } => {
            format!("hurt {} {} {result}", print_patches(patches), print_call(call))
        }
        Row::Sized { table, answer, call: Call::Initialise { c, h, d, s, v }, result, .. } => {
            assert_ne!(*result, 0, "the row says nothing of a table that is made");
            format!("beginSized {c} {h} {d} {s} {v} {table} {answer} {result}")
        }
        Row::Sized { table, answer, labels, call, result } => {
            format!("sized {table} {answer} {labels} {} {result}", print_call(call))
        }
        Row::Listed { patches, table, text } => {
            format!("listed {} {table} {:#X}", print_patches(patches), digest(text))
        }
        Row::Parts { format_1, format_3, parts } => {
            format!("parts {format_1} {format_3} {:#X}", digest(parts))
        }
    }
}

/// A row of a call that converts a date: it has no table and so rows of its own.
fn print_conversion(row: &Row) -> Option<String> {
    let (Row::Made { call, .. } | Row::Sized { call, .. } | Row::Hurt { call, .. }) = row else {
        return None;
    };
    if !matches!(call, Call::DateToStored { .. } | Call::DateToPacked { .. }) {
        return None;
    }
    let call = print_call(call);
    Some(match row {
        Row::Made { outcome, .. } if outcome.result == 0 => {
            format!("told {call} {}", numeral(&outcome.answer))
        }
        Row::Made { outcome, .. } => format!("untold {call} {}", outcome.result),
        Row::Sized { table, answer, result, .. } => {
            format!("convertSized {table} {answer} {call} {result}")
        }
        _ => unreachable!("no table to damage"),
    })
}

fn print_call(call: &Call) -> String {
    match call {
        // Only `begin` makes a table.
        Call::Initialise { .. } => unreachable!("an initialise is a row of its own"),
        Call::Allocate { name, attributes, kind, start, amount, secondary, option, expiry } => {
            let (name, attributes) = (print_name(name), print_attributes(attributes));
            let numbers = format!("{kind} {start} {amount} {secondary} {option}");
            format!("(allocate (request {name} {attributes} {numbers} {}))", print_date(expiry))
        }
        Call::Extend { name } => format!("(extend {})", print_name(name)),
        Call::Release { name, ttr } => format!("(release {} {ttr:#X})", print_name(name)),
        Call::Scratch { name, today, overriding } => {
            format!("(scratch {} {} {overriding})", print_name(name), print_date(today))
        }
        Call::Rename { old, new } => format!("(rename {} {})", print_name(old), print_name(new)),
        Call::Obtain { name } => format!("(obtain {})", print_name(name)),
        Call::Lspace => "lspace".into(),
        Call::Preview(call) => format!("(preview {})", print_call(call)),
        Call::DateToStored { packed } => format!("(dateToStored {})", print_date(packed)),
        Call::DateToPacked { stored } => format!("(dateToPacked {})", print_date(stored)),
    }
}

fn print_patches(patches: &[(usize, u8)]) -> String {
    list(patches.iter().map(|(at, byte)| format!("({at} , {byte:#04X})")))
}

/// The name up to the blanks that pad it, and its length where that is not 44.
fn print_name(name: &[u8]) -> String {
    let length = name.iter().rposition(|&b| b != 0x40).map_or(0, |at| at + 1);
    let bytes = list(name[..length].iter().map(|b| format!("{b:#04X}")));
    match name.len() {
        44 => format!("(nm {bytes})"),
        other => format!("(raw {other} {bytes})"),
    }
}

/// The number that makes the attribute bytes.
fn print_attributes(bytes: &[u8]) -> String {
    let k = bytes.first().copied().unwrap_or(0);
    assert_eq!(bytes, attributes_of(bytes.len(), k), "attributes made by hand");
    match bytes.len() {
        52 => format!("(attr {k})"),
        other => format!("(attrN {other} {k})"),
    }
}

/// The bytes as one numeral, and how many they are.
fn print_date(bytes: &[u8]) -> String {
    let digits: String = bytes.iter().map(|byte| format!("{byte:02X}")).collect();
    match bytes.len() {
        4 if *bytes == NO_DATE => "noDate".into(),
        0 => "(date 0 0x0)".into(),
        length => format!("(date {length} 0x{digits})"),
    }
}

fn list(items: impl Iterator<Item = String>) -> String {
    let text: String = items.map(|item| item + " ∷ ").collect();
    if text.is_empty() {
        "[]".into()
    } else {
        format!("({text}[])")
    }
}

/// The bytes as one numeral without leading zeros.
fn numeral(bytes: &[u8]) -> String {
    let digits: String = bytes.iter().map(|b| format!("{b:02X}")).collect();
    let digits = digits.trim_start_matches('0');
    format!("0x{}", if digits.is_empty() { "0" } else { digits })
}
