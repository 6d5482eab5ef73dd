//! What both implementations are given, and what they tell.

/// A line as it came: its kind and three more numbers.
pub type RawLine = [u64; 4];

/// An item that was asked for, and the answer.
pub type Asking = [u64; 2];

#[derive(Clone, Debug)]
pub enum Command {
    Write { desk: u64, item: u64, value: u64 },
    Script { desk: u64, item: u64, lines: Vec<RawLine> },
    Build { desk: u64, item: u64 },
    Remove { entry: u64 },
    Import { lines: Vec<RawLine>, askings: Vec<Asking>, result: u64 },
}

#[derive(Clone, Copy, Debug, PartialEq, Eq)]
pub struct Refusal {
    pub number: u64,
    pub place: u64,
}

impl Refusal {
    pub fn new(number: u64, place: u64) -> Self {
        Refusal { number, place }
    }
}

#[derive(Clone, Copy, Debug, PartialEq, Eq)]
pub enum Told {
    Done,
    Value(u64),
    Ring,
    Refused(Refusal),
}

#[derive(Clone, Copy, Debug)]
pub struct Size {
    pub desks: u64,
    pub items: u64,
    pub room: u64,
}

/// Numbers that an item takes in a desk's row.
pub const ITEM: usize = 130;
/// Numbers that a script takes: the count of its lines, and the lines.
pub const SCRIPT: usize = 129;
/// Numbers that an entry takes.
pub const ENTRY: usize = 195;
/// Where the first entry of a store begins, behind the count and the room.
pub const ENTRIES_AT: usize = 2;
pub const MAX_ITEMS: usize = 256;
pub const MAX_LINES: usize = 32;
pub const MAX_ASKINGS: usize = 32;

/// The rows of a house: the desks one behind the other, the store, the list of what ran.
#[derive(Clone, Debug, PartialEq, Eq)]
pub struct Rows {
    pub desks: Vec<u64>,
    pub store: Vec<u64>,
    pub ran: Vec<u64>,
}

impl Rows {
    pub fn new(size: Size) -> Self {
        let mut desk = vec![0; 1 + ITEM * size.items as usize];
        desk[0] = size.items;
        let mut store = vec![0; ENTRIES_AT + ENTRY * size.room as usize];
        store[1] = size.room;
        Rows { desks: desk.repeat(size.desks as usize), store, ran: vec![0; 1 + size.items as usize] }
    }
}
