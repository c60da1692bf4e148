//! Widths, points, packet states and sets of states.

/// The port that drops.
pub const DROP: u8 = 0;

/// Header, port and switch widths in bits, always within the limits.
#[derive(Clone, Copy, Debug, PartialEq, Eq)]
pub struct Widths {
    pub header: u8,
    pub port: u8,
    pub switch: u8,
}

impl Widths {
    /// The widths, if they are within the limits.
    pub fn within_limits(header: u8, port: u8, switch: u8) -> Option<Widths> {
        let each = (1..=6).contains(&header) && (2..=4).contains(&port) && switch <= 4;
        (each && 1 + header + port + switch <= 10).then_some(Widths { header, port, switch })
    }

    /// N, the bits of a state number.
    pub fn bits(self) -> u8 {
        1 + self.header + self.port + self.switch
    }

    /// How many states there are.
    pub fn states(self) -> usize {
        1 << self.bits()
    }

    /// The bytes of one plane.
    pub fn plane_bytes(self) -> usize {
        (1 << (2 * self.bits())) / 8
    }

    /// How many switches there are.
    pub fn switches(self) -> usize {
        1 << self.switch
    }

    /// How many ports a switch has.
    pub fn ports(self) -> u8 {
        1 << self.port
    }

    /// The port that leads to the controller.
    pub fn controller(self) -> u8 {
        self.ports() - 1
    }

    /// Whether a port is neither drop nor controller.
    pub fn is_ordinary(self, port: u8) -> bool {
        port != DROP && port != self.controller()
    }

    /// Whether a point exists.
    pub fn has(self, point: Point) -> bool {
        usize::from(point.switch) < self.switches() && point.port < self.ports()
    }
}

/// A port of a switch.
#[derive(Clone, Copy, Debug, PartialEq, Eq)]
pub struct Point {
    pub switch: u8,
    pub port: u8,
}

#[derive(Clone, Copy, Debug, PartialEq, Eq)]
pub enum Direction {
    Arriving,
    Departing,
}

/// A packet state.
#[derive(Clone, Copy, Debug, PartialEq, Eq)]
pub struct State {
    pub direction: Direction,
    pub point: Point,
    pub header: u8,
}

impl State {
    /// The number of a state: direction, switch, port, header, from the top down.
    pub fn number(self, widths: Widths) -> usize {
        let direction = match self.direction {
            Direction::Arriving => 0,
            Direction::Departing => 1,
        };
        let switch = (direction << widths.switch) + usize::from(self.point.switch);
        let port = (switch << widths.port) + usize::from(self.point.port);
        (port << widths.header) + usize::from(self.header)
    }

    /// The state of a number.
    pub fn numbered(number: usize, widths: Widths) -> State {
        let (rest, header) = split(number, widths.header);
        let (rest, port) = split(rest, widths.port);
        let (rest, switch) = split(rest, widths.switch);
        let direction = match rest {
            0 => Direction::Arriving,
            _ => Direction::Departing,
        };
        State { direction, point: Point { switch, port }, header }
    }
}

/// A number without its low bits, and those bits.
fn split(number: usize, bits: u8) -> (usize, u8) {
    (number >> bits, (number % (1 << bits)) as u8)
}

/// A set of state numbers.
#[derive(Clone, Debug, PartialEq, Eq)]
pub struct StateSet {
    words: [u64; 16],
}

impl StateSet {
    pub fn empty() -> StateSet {
        StateSet { words: [0; 16] }
    }

    pub fn insert(&mut self, state: usize) {
        self.words[state / 64] |= 1 << (state % 64);
    }

    /// Takes in the members of another set.
    pub fn extend(&mut self, other: &StateSet) {
        for (mine, its) in self.words.iter_mut().zip(other.words) {
            *mine |= its;
        }
    }

    pub fn contains(&self, state: usize) -> bool {
        self.words[state / 64] >> (state % 64) & 1 == 1
    }

    /// The members that the other set lacks, ascending.
    pub fn without(&self, other: &StateSet) -> Vec<usize> {
        let mut members = Vec::new();
        for (place, (mine, its)) in self.words.iter().zip(other.words).enumerate() {
            let mut left = mine & !its;
            while left != 0 {
                members.push(64 * place + left.trailing_zeros() as usize);
                left &= left - 1;
            }
        }
        members
    }
}

impl FromIterator<usize> for StateSet {
    fn from_iter<I: IntoIterator<Item = usize>>(states: I) -> StateSet {
        let mut set = StateSet::empty();
        states.into_iter().for_each(|state| set.insert(state));
        set
    }
}
