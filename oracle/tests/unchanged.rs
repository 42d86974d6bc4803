//! The published files are the ones compiled, but for the mark the build takes off.

/// Name, SHA-256 of the published bytes, the published text, the text compiled.
const FILES: [(&str, &str, &str, &str); 3] = [
    (
        "cancel.rs",
        "31af68b77c866f40911aa6bfe27f5521358ed1ebd47e102a1cf206e3249ad8ab",
        include_str!("../../docs/src/src/cancel.rs"),
        include_str!(concat!(env!("OUT_DIR"), "/cancel.rs")),
    ),
    (
        "circuit.rs",
        "175f5fa5dbd8995f3be70a938bfdfdfd4f250bf6bff81d7cd83587f92e1013f2",
        include_str!("../../docs/src/src/circuit.rs"),
        include_str!(concat!(env!("OUT_DIR"), "/circuit.rs")),
    ),
    (
        "pass.rs",
        "e318183b42c713099e060f33b307bba36ed58b81e67fe5d5d8e16738513f23ab",
        include_str!("../../docs/src/src/pass.rs"),
        include_str!(concat!(env!("OUT_DIR"), "/pass.rs")),
    ),
];

#[test]
fn published_bytes() {
    for (name, digest, published, _) in FILES {
        assert_eq!(sha256(published.as_bytes()), digest, "{name}");
    }
}

/// Putting the marks back gives the published text, byte for byte.
#[test]
fn only_the_leading_mark_is_gone() {
    for (name, _, published, compiled) in FILES {
        let marks = published.lines().take_while(|line| line.starts_with("//!"));
        let mut restored = String::new();
        let mut rest = compiled;
        for _ in marks {
            let (line, after) = rest.split_once('\n').expect("a whole line");
            let comment = line.strip_prefix("//").expect("still a comment");
            restored.push_str(&format!("//!{comment}\n"));
            rest = after;
        }
        restored.push_str(rest);
        assert!(restored == published, "{name}");
    }
}

/// What counts has a call after each `changed = true;` of the Hadamard sweep,
/// and is else the text compiled.
#[test]
fn only_two_calls_count() {
    const CALL: &str = " count_firing();";
    let counting = include_str!(concat!(env!("OUT_DIR"), "/cancel_counting.rs"));
    let [(_, _, _, compiled), ..] = FILES;
    assert!(counting.replace(CALL, "") == compiled);
    let (_, rest) = counting
        .split_once("\nfn reduce_hadamards_pass(")
        .expect("it");
    let (sweep, _) = rest.split_once("\n}\n").expect("its end");
    assert_eq!(counting.matches(CALL).count(), 2);
    for text in [CALL, &format!("changed = true;{CALL}"), "changed = true;"] {
        assert_eq!(sweep.matches(text).count(), 2, "{text}");
    }
}

#[test]
fn sha256_of_known_texts() {
    assert_eq!(
        sha256(b""),
        "e3b0c44298fc1c149afbf4c8996fb92427ae41e4649b934ca495991b7852b855"
    );
    assert_eq!(
        sha256(b"abc"),
        "ba7816bf8f01cfea414140de5dae2223b00361a396177a9cb410ff61f20015ad"
    );
}

/// SHA-256 in hexadecimal.
fn sha256(message: &[u8]) -> String {
    let primes: Vec<u64> = (2..312).filter(|&n| (2..n).all(|d| n % d != 0)).collect();
    let mut state: [u32; 8] = std::array::from_fn(|at| root_fraction(primes[at], 2));
    let constants: [u32; 64] = std::array::from_fn(|at| root_fraction(primes[at], 3));

    let mut padded = message.to_vec();
    padded.push(0x80);
    padded.resize(padded.len().next_multiple_of(64), 0);
    if padded.len() - message.len() < 9 {
        padded.resize(padded.len() + 64, 0);
    }
    let end = padded.len() - 8;
    padded[end..].copy_from_slice(&(message.len() as u64 * 8).to_be_bytes());

    for block in padded.chunks_exact(64) {
        compress(&mut state, block, &constants);
    }
    state.iter().map(|word| format!("{word:08x}")).collect()
}

/// The first 32 bits after the point of the square or cube root of a prime.
fn root_fraction(prime: u64, degree: u32) -> u32 {
    let wanted = u128::from(prime) << (32 * degree);
    let mut root = 0_u128;
    for bit in (0..37).rev() {
        let tried = root | 1 << bit;
        if tried.pow(degree) <= wanted {
            root = tried;
        }
    }
    root as u32
}

fn compress(state: &mut [u32; 8], block: &[u8], constants: &[u32; 64]) {
    let mut words = [0_u32; 64];
    for (word, bytes) in words.iter_mut().zip(block.chunks_exact(4)) {
        *word = u32::from_be_bytes(bytes.try_into().expect("four bytes"));
    }
    for at in 16..64 {
        let (early, late) = (words[at - 15], words[at - 2]);
        let first = early.rotate_right(7) ^ early.rotate_right(18) ^ (early >> 3);
        let second = late.rotate_right(17) ^ late.rotate_right(19) ^ (late >> 10);
        let sum = words[at - 16].wrapping_add(words[at - 7]);
        words[at] = sum.wrapping_add(first).wrapping_add(second);
    }
    let [mut a, mut b, mut c, mut d, mut e, mut f, mut g, mut h] = *state;
    for (word, constant) in words.iter().zip(constants) {
        let turned = e.rotate_right(6) ^ e.rotate_right(11) ^ e.rotate_right(25);
        let chosen = (e & f) ^ (!e & g);
        let one = [turned, chosen, *constant, *word]
            .into_iter()
            .fold(h, u32::wrapping_add);
        let turned = a.rotate_right(2) ^ a.rotate_right(13) ^ a.rotate_right(22);
        let two = turned.wrapping_add((a & b) ^ (a & c) ^ (b & c));
        (h, g, f, e) = (g, f, e, d.wrapping_add(one));
        (d, c, b, a) = (c, b, a, one.wrapping_add(two));
    }
    for (old, new) in state.iter_mut().zip([a, b, c, d, e, f, g, h]) {
        *old = old.wrapping_add(new);
    }
}
