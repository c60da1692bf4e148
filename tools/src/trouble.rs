//! Why the program cannot give an answer, and the exit status.

use crate::json::Object;

/// The exit status, the later the worse.
#[derive(Clone, Copy, Debug, PartialEq, Eq, PartialOrd, Ord)]
pub enum Status {
    /// The network holds, all commands are forwarded.
    Good = 0,
    /// Violated or blocked, a command refused by a row, or no route.
    Bad = 1,
    /// A text, or an argument, is faulty, or the network is refused by a row.
    Faulty = 2,
    /// Reading or writing failed.
    Failed = 3,
    /// What the program makes of a network does not fit the library's answer.
    Internal = 4,
}

/// What is wrong, in words that end with a line break, and as objects.
#[derive(Clone, Debug)]
pub struct Trouble {
    pub status: Status,
    pub message: String,
    pub objects: Vec<Object>,
}

impl Trouble {
    fn new(status: Status, answer: &str, message: String) -> Trouble {
        let object = Object::new().text("answer", answer).text("message", &message);
        Trouble { status, message: format!("{message}\n"), objects: vec![object] }
    }

    /// An argument, or what is in a file, is faulty.
    pub fn faulty(message: impl Into<String>) -> Trouble {
        Trouble::new(Status::Faulty, "faulty", message.into())
    }

    /// Reading or writing failed.
    pub fn failed(message: impl Into<String>) -> Trouble {
        Trouble::new(Status::Failed, "failed", message.into())
    }

    /// What the library answers cannot be explained.
    pub fn internal(message: impl Into<String>) -> Trouble {
        let message = format!("internal error: {}; please report this", message.into());
        Trouble::new(Status::Internal, "internal", message)
    }

    /// The trouble with an answer, beside the answer as the program `gate` prints it.
    pub fn beside(self, line: &str) -> Trouble {
        let message = format!("{}the library's answer is `{line}`\n", self.message);
        let objects =
            self.objects.into_iter().map(|object| object.text("gate_line", line)).collect();
        Trouble { message, objects, ..self }
    }
}
