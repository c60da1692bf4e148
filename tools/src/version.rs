//! The wire version of a network: which OpenFlow its switches speak. It is byte 4 of the widths
//! record, and 0 reads as 4, OpenFlow 1.3.

use crate::fault::Fault;
use crate::tokens::Statement;
use crate::Record;

/// The wire version of OpenFlow 1.0.
const OPENFLOW_1_0: u8 = 1;

/// The bytes that are a wire version.
const VERSIONS: [u8; 3] = [0, OPENFLOW_1_0, 4];

/// Whether a modify without its rule adds it to these records. In OpenFlow 1.3 it changes nothing.
pub fn modify_adds(records: &[Record]) -> bool {
    records.first().is_some_and(|widths| widths[4] == OPENFLOW_1_0)
}

/// What is wrong with a byte that is to be a wire version.
pub fn version_fault(byte: u8) -> Option<String> {
    (!VERSIONS.contains(&byte)).then(|| {
        format!(
            "the version is {byte}, and must be 1 (OpenFlow 1.0) or 4 (OpenFlow 1.3; 0 reads as 4)"
        )
    })
}

/// Reads the end of a widths statement: the version, or nothing, which stands for 0.
pub fn read_version(statement: &mut Statement) -> Result<u8, Fault> {
    let word = statement.peek().text;
    if word.is_empty() {
        return Ok(0);
    }
    if !statement.accept("version") {
        let fault = statement.expected("`version` or the end of the statement");
        return Err(fault.with_nearest(word, ["version"]));
    }
    let number = statement.peek().text;
    let Some(version) = VERSIONS.into_iter().find(|version| version.to_string() == number) else {
        let what = "a version (1 for OpenFlow 1.0, or 4 for OpenFlow 1.3)";
        return Err(statement.expected(what));
    };
    statement.take();
    let end = statement.finish();
    end.map_err(|fault| match statement.peek().text {
        "." => fault.hint("it is the version on the wire: 1 for OpenFlow 1.0, 4 for OpenFlow 1.3"),
        _ => fault,
    })?;
    Ok(version)
}
