//! Valid lists: all short ones, random ones, long ones of every family, and document 01's.

use crate::trial::Trial;
use crate::{Part, Share};
use oracle::lists::{
    Family, all_short, alphabet_one_wire, alphabet_three_wires, dense, random, small,
};
use oracle::notation;

/// What is compared at all and in the share.
pub fn parts(share: Share) -> Vec<Part> {
    let one_wire = share.of(6, 5);
    let three_wires = share.of(4, 3);
    let seeds = share.of(500_000, 50_000);
    let mut parts: Vec<Part> = vec![
        (
            "the small lists of document 01".into(),
            Box::new(documented()),
        ),
        (
            format!("every list to length {one_wire} on 1 wire"),
            Box::new(short(1, alphabet_one_wire(), one_wire)),
        ),
        (
            format!("every list to length {three_wires} on 3 wires"),
            Box::new(short(3, alphabet_three_wires(), three_wires)),
        ),
        (
            format!("{} random lists", 2 * seeds),
            Box::new((0..seeds).flat_map(|seed| [random(seed).into(), dense(seed).into()])),
        ),
    ];
    parts.extend(families(share.of(100_000, 10_000), share.of(20_000, 4_000)));
    parts
}

fn short(wires: usize, letters: Vec<[u8; 16]>, longest: usize) -> impl Iterator<Item = Trial> {
    // The lists borrow the alphabet, which is small and wanted to the end.
    let letters: &'static [[u8; 16]] = letters.leak();
    (0..=longest)
        .flat_map(|length| all_short(letters, length))
        .map(move |list| Trial::exact(wires, 1, list))
}

/// A list of each family; a fan-out takes time with the square of its gates.
fn families(gates: usize, fan_out: usize) -> impl Iterator<Item = Part> {
    Family::ALL.into_iter().map(move |family| {
        let gates = match family {
            Family::FanOut | Family::FanOutBlocked => fan_out,
            _ => gates,
        };
        let name = format!("a long list, {}, {gates} gates", family.name());
        let made = std::iter::once_with(move || family.make(gates, 1).into());
        (name, Box::new(made) as Box<dyn Iterator<Item = Trial>>)
    })
}

/// No gates on no wires, and the lists of the table.
fn documented() -> impl Iterator<Item = Trial> {
    let rows = small::DOCUMENT.into_iter().chain(small::MORE);
    let lists = rows.map(|(text, _, _)| {
        Trial::exact(
            small::WIRES,
            small::BITS,
            notation::parse(text).expect(text),
        )
    });
    [Trial::exact(0, 0, Vec::new())].into_iter().chain(lists)
}

/// The fourteen lists with what the table says, through the entry that takes its own room.
pub fn table() -> Result<u64, String> {
    for (text, output, walked) in small::DOCUMENT {
        let list = notation::parse(text).expect(text);
        let wanted = notation::parse(output).expect(output);
        match stridebank::cancel(small::WIRES, small::BITS, &list) {
            Ok(done) if done.list == wanted && done.walked == walked => {}
            other => return Err(format!("{text} gives {other:?}, not {output}, {walked}")),
        }
    }
    match stridebank::cancel(0, 0, &[]) {
        Ok(done) if done.list.is_empty() && done.journal.is_empty() && done.walked == 0 => Ok(15),
        other => Err(format!("nothing on no wires gives {other:?}")),
    }
}
