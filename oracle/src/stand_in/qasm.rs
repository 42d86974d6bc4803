//! Stand-in for the published `qasm`, which is not in the text given: it refuses.

use crate::circuit::Circuit;

pub fn serialize(_circuit: &Circuit) -> String {
    unimplemented!("lists are written as records here")
}

pub fn parse(_text: &str) -> Result<Circuit, String> {
    Err("lists are read from records here".to_string())
}
