//! The kinds of records, and of what they are made of, by name.

pub const WIDTHS: u8 = 1;
pub const LINK: u8 = 2;
pub const MISS: u8 = 3;
pub const RULE: u8 = 4;
pub const POLICY: u8 = 5;
pub const ADD: u8 = 6;
pub const MODIFY: u8 = 7;
pub const DELETE: u8 = 8;
pub const GROUP: u8 = 9;

/// Whether a record of this kind is a command.
pub fn is_command(kind: u8) -> bool {
    matches!(kind, ADD..=DELETE)
}

/// A record's kind in words.
pub fn words(kind: u8) -> String {
    let words = match kind {
        WIDTHS => "widths",
        LINK => "link",
        MISS => "miss",
        RULE => "rule",
        POLICY => "policy",
        ADD => "add",
        MODIFY => "modify",
        DELETE => "delete",
        GROUP => "group",
        _ => return format!("kind {kind}"),
    };
    words.to_string()
}

/// Actions of a rule, a miss or a command.
pub mod action {
    pub const OUTPUT: u8 = 1;
    pub const SET: u8 = 2;
    pub const IN_PORT: u8 = 3;
    pub const GROUP: u8 = 4;
}

/// Targets of a bucket.
pub mod target {
    pub const PORT: u8 = 1;
    pub const GROUP: u8 = 2;
}

/// Nodes of a policy.
pub mod node {
    pub const BIT: u8 = 0;
    pub const R: u8 = 1;
    pub const E: u8 = 2;
    pub const NOT: u8 = 3;
    pub const AND: u8 = 4;
    pub const OR: u8 = 5;
    pub const SOME: u8 = 6;
    pub const ALL: u8 = 7;
    pub const TC: u8 = 8;

    /// The name of each kind.
    pub const NAMES: [&str; 9] = ["BIT", "R", "E", "NOT", "AND", "OR", "SOME", "ALL", "TC"];
}
