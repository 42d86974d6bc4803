//! The tests 1 to 12 of document 01, written once more from its table alone.

/// The lengths of what is lent, in bytes, words and bytes.
#[derive(Clone, Copy, Debug)]
pub struct Lengths {
    pub out: usize,
    pub work: usize,
    pub journal: usize,
}

/// Number and place of the refusal, if there is one.
pub fn refusal(wires: usize, bits: usize, list: &[u8], lent: Lengths) -> Option<(u64, u64)> {
    // No product overflows in 128 bits, so each line is its row of the table.
    let (n, g) = (wires as u128, (list.len() / 16) as u128);
    let sizes = [
        (1, wires > 65_536 || bits > 65_536),
        (2, !list.len().is_multiple_of(16)),
        (3, g > 1_048_576),
        (4, lent.out < list.len()),
        (5, (lent.work as u128) < 16 * g + 4 * n),
        (6, (lent.journal as u128) < 24 * g),
    ];
    if let Some((number, _)) = sizes.into_iter().find(|&(_, fails)| fails) {
        return Some((number, 0));
    }
    for (place, record) in list.chunks_exact(16).enumerate() {
        if let Some(number) = of_record(wires, bits, record) {
            return Some((number, place as u64));
        }
    }
    None
}

/// The first failing test of 7 to 12.
fn of_record(wires: usize, bits: usize, record: &[u8]) -> Option<u64> {
    let kind = record[0];
    if matches!(kind, 7 | 14 | 17 | 18 | 21..=24) {
        return Some(7);
    }
    if kind >= 27 {
        return Some(8);
    }
    let words: Vec<usize> = record[4..]
        .chunks_exact(4)
        .map(|word| u32::from_le_bytes([word[0], word[1], word[2], word[3]]) as usize)
        .collect();
    let on = match kind {
        8 | 9 | 19 | 20 | 25 => 2,
        10 | 11 | 26 => 3,
        _ => 1,
    };
    let (used, measure) = (&words[..on], kind == 12);
    let unused = &words[on + usize::from(measure)..];
    if record[1..4].iter().any(|&byte| byte != 0) || unused.iter().any(|&word| word != 0) {
        return Some(9);
    }
    if used.iter().any(|&wire| wire >= wires) {
        return Some(10);
    }
    if (1..on).any(|at| used[..at].contains(&used[at])) {
        return Some(11);
    }
    (measure && words[1] >= bits).then_some(12)
}
