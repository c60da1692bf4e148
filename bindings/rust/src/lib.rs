//! A forwarding gate for hospital ward switches: the three calls of the proved library for Rust.
//!
//! A network is a list of records of 24 bytes: the widths with the wire version, links, what a switch
//! does with a frame that no rule matches, rules, policies, and groups. The **check call** judges a
//! network. The **command call** judges the network that an add, a modify or a delete would leave,
//! and carries the command out only if no policy is broken then. The **route call** finds how a frame
//! gets from one state to another. `docs/FORMAT.md` describes the records and the states, byte by
//! byte and bit by bit.
//!
//! [`Gate`] judges a network and keeps it; [`Buffers`] owns the buffers of the calls, sized to their
//! network, and judges nothing unasked. Where no heap is wanted, [`check`], [`command`] and [`route`]
//! are the same calls over lent buffers. [`records`] puts records together from their parts.
//!
//! Network K has two switches and one policy, that header 1 never leaves. Its first add would let
//! header 1 out; the second lets header 0 alone pass. Header 0 gets from port 1 of switch 0, where
//! it arrives, to port 2 of switch 1, where it leaves, but not back:
//!
//! ```
//! use wegbaro::records::{Action, Command, Link, Match, Miss, Node, Pattern, Point, PolicyNode};
//! use wegbaro::records::{Rule, Variable::*, Widths};
//! use wegbaro::{Checked, Commanded, Gate};
//!
//! let port = |number| Pattern::exactly(number, 2);
//! let header = |number| Pattern::exactly(number, 1);
//! let (dropped, to_2) = ([Action::Output(port(0))], [Action::Output(port(2))]);
//! let a = Match { switch: 0, priority: 10, port: port(1), header: header(0) };
//! let b = Match { switch: 1, priority: 10, port: port(1), header: Pattern::ANY };
//! let ends = [Point { switch: 0, port: 2 }, Point { switch: 1, port: 1 }];
//! let mut k = vec![
//!     Widths { header: 1, port: 2, switch: 1, version: 0 }.record(),
//!     Link { ends }.record(),
//!     Miss { switch: 0, actions: &dropped }.record(),
//!     Miss { switch: 1, actions: &dropped }.record(),
//!     Rule { of: a, actions: &to_2 }.record(),
//!     Rule { of: b, actions: &to_2 }.record(),
//! ];
//! // E(X) & !bit(X,4) & exists Y. tc(R(X,Y))(X,Y) & (E(Y) & bit(Y,4) & bit(Y,0))
//! let nodes = [
//!     Node::E(X),           // 0
//!     Node::Bit(X, 4),      // 1
//!     Node::Not(1),         // 2
//!     Node::And(0, 2),      // 3: X arrives at an external point
//!     Node::R(X, Y),        // 4
//!     Node::Tc(4, X, Y),    // 5: X gets to Y
//!     Node::E(Y),           // 6
//!     Node::Bit(Y, 4),      // 7
//!     Node::Bit(Y, 0),      // 8
//!     Node::And(6, 7),      // 9: Y departs at an external point
//!     Node::And(9, 8),      // 10: with header 1
//!     Node::And(5, 10),     // 11
//!     Node::Some(11, Y),    // 12
//!     Node::And(3, 12),     // 13
//! ];
//! k.extend(nodes.map(|node| PolicyNode { policy: 0, node }.record()));
//!
//! let mut gate = Gate::new(&k)?;
//! assert_eq!(gate.check(), Checked::Holds);
//!
//! let all = Match { switch: 0, priority: 5, port: Pattern::ANY, header: Pattern::ANY };
//! let first = Command::Add(Rule { of: all, actions: &to_2 });
//! assert_eq!(gate.command(&first.record())?, Commanded::Blocked { policy: 0, state: 3 });
//! assert_eq!(gate.count(), 20);
//!
//! let header_0 = Match { header: header(0), ..all };
//! let second = Command::Add(Rule { of: header_0, actions: &to_2 });
//! assert_eq!(gate.command(&second.record())?, Commanded::Forwarded { count: 21 });
//! assert_eq!(gate.records().len(), 21);
//!
//! assert_eq!(gate.route(2, 28)?, Some(vec![2, 20, 10, 28]));
//! assert_eq!(gate.route(28, 2)?, None);
//! # Ok::<(), wegbaro::Refusal>(())
//! ```
//!
//! The static library `libwegbaro.a` is taken from `target/staticlib` of the project, or from the
//! folder that the environment variable `WEGBARO_LIB_DIR` names when this crate is built; a relative
//! path goes on from the folder where cargo is called.
//!
//! # Panics
//!
//! Every call panics if the linked library is not one for this crate: if its version,
//! [`library_version`], has another major or minor number than [`VERSION`], or is older.

#![deny(missing_docs)]

mod buffers;
mod calls;
mod gate;
pub mod records;
mod refusal;
mod version;

pub use buffers::{list_entries, work_bytes, Buffers};
pub use calls::{check, command, route, Checked, Commanded, Routed};
pub use gate::Gate;
pub use refusal::Refusal;
pub use version::{library_version, Version, VERSION};

/// Bytes of a record, and of a command.
pub const RECORD_BYTES: usize = 24;

/// Records of the largest network.
pub const MOST_RECORDS: usize = 657;

/// The least bytes of a store: the largest network.
pub const STORE_BYTES: usize = MOST_RECORDS * RECORD_BYTES;

/// Bytes of work that are enough for every network.
pub const MOST_WORK_BYTES: usize = (32 + 2) * ((1 << 20) / 8);

/// Entries of a list that are enough for every route.
pub const MOST_LIST_ENTRIES: usize = (1 << 10) + 1;

/// A record, or a command.
pub type Record = [u8; RECORD_BYTES];
