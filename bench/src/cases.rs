//! Full-size builds to be timed: a desk of 256 items, and a store with room for 4,096 entries.
use crate::command::{Asking, Command, ENTRIES_AT, ENTRY, ITEM, MAX_ITEMS, RawLine, Rows, Size, Told};
use crate::plain::{self, Lent};

const SIZE: Size = Size { desks: 1, items: MAX_ITEMS as u64, room: 4096 };
const LAST: u64 = SIZE.items - 1;

/// A build of an item over a store that holds so many entries before each build.
pub struct Case {
    pub name: &'static str,
    pub rows: Rows,
    pub item: u64,
}

fn ask(register: u64, item: u64) -> RawLine {
    [0, register, item, 0]
}

fn number(register: u64, number: u64) -> RawLine {
    [2, register, number, 0]
}

fn add(register: u64, other: u64) -> RawLine {
    [3, register, register, other]
}

fn give(register: u64) -> RawLine {
    [5, register, 0, 0]
}

/// Does a command that is not refused.
fn perform(rows: &mut Rows, command: Command) {
    let lent = Lent::whole(rows);
    let told = plain::perform(SIZE, rows, lent, &command);
    assert!(!matches!(told, Told::Refused(_)), "{command:?}: {told:?}");
}

fn made(scripts: impl Fn(u64) -> Vec<RawLine>) -> Rows {
    let mut rows = Rows::new(SIZE);
    for item in 0..SIZE.items {
        perform(&mut rows, Command::Script { desk: 0, item, lines: scripts(item) });
    }
    rows
}

/// Each item asks for the two below it and gives their sum.
fn ladder(item: u64) -> Vec<RawLine> {
    match item {
        0 | 1 => vec![number(0, 1 + item), give(0)],
        _ => vec![ask(0, item - 1), ask(1, item - 2), add(0, 1), give(0)],
    }
}

/// Each item asks for the fifteen below it and gives their sum.
fn wide(item: u64) -> Vec<RawLine> {
    let mut lines = vec![number(0, 1)];
    for below in 1..=item.min(15) {
        lines.extend([ask(1, item - below), add(0, 1)]);
    }
    lines.truncate(31);
    lines.push(give(0));
    lines
}

/// Each item asks for the one below it, and item 0 for `first` if there is one.
fn chain(first: Option<u64>) -> impl Fn(u64) -> Vec<RawLine> {
    move |item| match (item, first) {
        (0, None) => vec![number(0, 7), give(0)],
        (0, Some(first)) => vec![ask(0, first), give(0)],
        _ => vec![ask(0, item - 1), give(0)],
    }
}

fn built(mut rows: Rows) -> Rows {
    perform(&mut rows, Command::Build { desk: 0, item: LAST });
    rows
}

fn written(mut rows: Rows, item: u64, value: u64) -> Rows {
    perform(&mut rows, Command::Write { desk: 0, item, value });
    rows
}

/// The store filled up with honest entries, before those that it holds.
fn filled(mut rows: Rows, entry: impl Fn(u64) -> (Vec<RawLine>, Vec<Asking>, u64)) -> Rows {
    let count = rows.store[0] as usize;
    let kept = rows.store[ENTRIES_AT..][..ENTRY * count].to_vec();
    rows.store[0] = 0;
    for index in 0..SIZE.room - count as u64 {
        let (lines, askings, result) = entry(index);
        perform(&mut rows, Command::Import { lines, askings, result });
    }
    let free = ENTRIES_AT + ENTRY * rows.store[0] as usize;
    rows.store[free..][..kept.len()].copy_from_slice(&kept);
    rows.store[0] += count as u64;
    rows
}

/// A script that no item of the cases has, as long as those of a ladder.
fn other(index: u64) -> (Vec<RawLine>, Vec<Asking>, u64) {
    let lines = vec![ask(0, 1000 + index), ask(1, 0), add(0, 1), give(0)];
    (lines, vec![[1000 + index, 2], [0, 3]], 5)
}

const ASKED: u64 = 31;

fn many_askings() -> Vec<RawLine> {
    (0..ASKED).map(|item| ask(item % 8, item)).chain([give(0)]).collect()
}

/// An honest entry of that script in which all answers are right but the last.
fn last_wrong(index: u64) -> (Vec<RawLine>, Vec<Asking>, u64) {
    let mut askings: Vec<Asking> = (0..ASKED).map(|item| [item, 0]).collect();
    askings[ASKED as usize - 1][1] = 1 + index;
    (many_askings(), askings, 0)
}

pub fn all() -> Vec<Case> {
    let case = |name, rows| Case { name, rows, item: LAST };
    let mut asker = Rows::new(SIZE);
    perform(&mut asker, Command::Script { desk: 0, item: LAST, lines: many_askings() });
    vec![
        case("ladder, nothing remembered", made(ladder)),
        case("ladder, everything remembered", built(made(ladder))),
        case("ladder, lowest item rewritten", written(built(made(ladder)), 0, 9)),
        case("wide, nothing remembered", made(wide)),
        case("wide, everything remembered", built(made(wide))),
        case("wide, middle item rewritten", written(built(made(wide)), 128, 9)),
        case("chain of 256, nothing remembered", made(chain(None))),
        case("ring of 256", made(chain(Some(LAST)))),
        case("4,096 entries of the item's script, last answer wrong", filled(asker, last_wrong)),
        case("ladder, 4,096 entries of other scripts", filled(made(ladder), other)),
        case("ladder, remembered behind 3,840 of other scripts", filled(built(made(ladder)), other)),
    ]
}

impl Case {
    /// The numbers of the one desk.
    pub fn desk(&self) -> &[u64] {
        &self.rows.desks[..1 + ITEM * MAX_ITEMS]
    }
}
