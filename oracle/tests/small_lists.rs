//! Small lists with what comes out and how far the walks went.

use oracle::lists::small::{BITS, DOCUMENT, MORE, Row, WIRES};
use oracle::{notation, run, run_untouched};

fn check(rows: &[Row]) {
    for &(input, output, walked) in rows {
        let list = notation::parse(input).expect(input);
        let answer = run(WIRES, BITS, &list);
        assert_eq!(notation::show(&answer.list), output, "output of {input}");
        assert_eq!(answer.walked, walked, "walked of {input}");
        assert_eq!(
            run_untouched(WIRES, BITS, &list),
            answer.list,
            "entry on {input}"
        );
    }
}

#[test]
fn fourteen_of_document_01() {
    check(&DOCUMENT);
}

#[test]
fn more_small_lists() {
    check(&MORE);
}

/// No wire at all is a valid number of wires for no gate.
#[test]
fn nothing_on_no_wires() {
    assert_eq!(run(0, 0, &[]).list, []);
    assert_eq!(run(0, 0, &[]).walked, 0);
    assert_eq!(run_untouched(0, 0, &[]), []);
}
