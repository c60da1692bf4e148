//! The proved library through its header: calls made by a program in C.

use crate::build::{compile, library, Folder};
use crate::gate::{Answer, Call, Gate, Lent};
use std::cell::RefCell;
use std::io::{BufRead, BufReader, Read, Write};
use std::process::{Child, ChildStdout, Command, Stdio};

/// The program `tests/c/calls.c`, which makes one call after the other.
pub struct InC(RefCell<Running>);

struct Running {
    program: Child,
    answers: BufReader<ChildStdout>,
}

impl InC {
    /// Builds the program in a folder and starts it.
    pub fn new(folder: &Folder) -> InC {
        let built = folder.path().join("calls");
        compile(&["cc", "-std=c89"], "tests/c/calls.c", &library(), &built);
        let mut command = Command::new(&built);
        command.stdin(Stdio::piped()).stdout(Stdio::piped());
        let mut program = command.spawn().expect("it was built just now");
        let answers = BufReader::new(program.stdout.take().expect("it is piped"));
        InC(RefCell::new(Running { program, answers }))
    }
}

impl Gate for InC {
    fn answer(&self, call: &Call, lent: &mut Lent) -> Answer {
        let mut running = self.0.borrow_mut();
        running.ask(call, lent);
        running.answer(lent)
    }
}

impl Drop for Running {
    fn drop(&mut self) {
        // The program ends when no more calls come.
        let _ = self.program.wait();
    }
}

impl Running {
    /// Writes a call: a line of its name and its numbers, then its bytes.
    fn ask(&mut self, call: &Call, Lent { store, n, work, list }: &Lent) {
        let (given, start, end): (&[u8], usize, usize) = match call {
            Call::Check => (&[], 0, 0),
            Call::Command(given) => (given, 0, 0),
            Call::Route { start, end } => (&[], *start, *end),
        };
        let numbers = [store.len(), *n, work.len(), given.len(), start, end, list.len()];
        let line = format!("{} {}\n", call.name(), numbers.map(|it| it.to_string()).join(" "));
        let entries: Vec<u8> = list.iter().flat_map(|entry| entry.to_ne_bytes()).collect();
        let input = self.program.stdin.as_mut().expect("it is piped");
        for part in [line.as_bytes(), store, work, given, &entries] {
            input.write_all(part).expect("the program reads each call");
        }
    }

    /// Reads an answer: a line of its case and its numbers, then what is in the buffers.
    fn answer(&mut self, Lent { store, work, list, .. }: &mut Lent) -> Answer {
        let mut line = String::new();
        self.answers.read_line(&mut line).expect("the program answers each call");
        self.fill(store);
        self.fill(work);
        let mut entries = vec![0; 2 * list.len()];
        self.fill(&mut entries);
        let (entries, _) = entries.as_chunks();
        *list = entries.iter().copied().map(u16::from_ne_bytes).collect();
        answer_of(&line)
    }

    fn fill(&mut self, buffer: &mut [u8]) {
        self.answers.read_exact(buffer).expect("every buffer comes back whole");
    }
}

/// The answer that a line of the program tells.
fn answer_of(line: &str) -> Answer {
    let words: Vec<&str> = line.split_whitespace().collect();
    let [case, first, second] = words[..] else { panic!("no answer: {line:?}") };
    match (case, [first, second].map(|number| number.parse().expect("a number"))) {
        ("holds", [0, 0]) => Answer::Holds,
        ("violated", [policy, state]) => Answer::Violated { policy, state },
        ("forwarded", [count, 0]) => Answer::Forwarded { count },
        ("blocked", [policy, state]) => Answer::Blocked { policy, state },
        ("found", [count, 0]) => Answer::Found { count },
        ("none", [0, 0]) => Answer::NoRoute,
        ("refused", [number, place]) => Answer::Refused { number, place },
        _ => panic!("no answer: {line:?}"),
    }
}
