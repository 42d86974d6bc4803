//! Lists as short text: `h0 cnot(0,1) measure(0,1)`, the empty list as no text.

use crate::records::{self, KINDS, RECORD};

/// The records of a text, gates parted by blanks. The wires are not bounded.
pub fn parse(text: &str) -> Result<Vec<u8>, String> {
    let mut list = Vec::new();
    for word in text.split_whitespace() {
        let (name, operands) = take_apart(word).ok_or_else(|| format!("no gate: {word}"))?;
        let code = KINDS
            .iter()
            .position(|row| row.name == name)
            .ok_or_else(|| format!("no such kind: {word}"))? as u8;
        if operands.len() != records::words_used(code) {
            return Err(format!("wrong number of operands: {word}"));
        }
        let mut words = [0; 3];
        words[..operands.len()].copy_from_slice(&operands);
        let record = records::record(code, words);
        if let Some(fault) = records::fault(&record) {
            return Err(format!("{fault}: {word}"));
        }
        list.extend_from_slice(&record);
    }
    Ok(list)
}

/// The text of a list. Whatever is no valid record is shown by its bytes, as
/// this is also how a wrong list gets into a message.
pub fn show(list: &[u8]) -> String {
    let words: Vec<String> = list.chunks(RECORD).map(show_bytes).collect();
    words.join(" ")
}

fn show_bytes(bytes: &[u8]) -> String {
    match bytes.try_into() {
        Ok(record) if records::fault(record).is_none() => show_record(record),
        _ => format!("?{bytes:?}"),
    }
}

fn show_record(record: &[u8; RECORD]) -> String {
    let (code, words) = records::parts(record);
    let name = KINDS[usize::from(code)].name;
    match words[..records::words_used(code)] {
        [a] => format!("{name}{a}"),
        [a, b] => format!("{name}({a},{b})"),
        _ => format!("{name}({},{},{})", words[0], words[1], words[2]),
    }
}

/// The name and the operands: `h0` for one operand, `cnot(0,1)` for more.
fn take_apart(word: &str) -> Option<(&str, Vec<u32>)> {
    if let Some((name, rest)) = word.split_once('(') {
        let operands: Option<Vec<u32>> = rest.strip_suffix(')')?.split(',').map(number).collect();
        return operands.filter(|all| all.len() > 1).map(|all| (name, all));
    }
    let name = word.trim_end_matches(|letter: char| letter.is_ascii_digit());
    Some((name, vec![number(&word[name.len()..])?]))
}

/// A number as it is shown: digits only, no zero in front.
fn number(text: &str) -> Option<u32> {
    let value: u32 = text.parse().ok()?;
    (value.to_string() == text).then_some(value)
}
