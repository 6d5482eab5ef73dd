//! The rules by example; what is expected is worked out from the rules.
use super::{Lent, perform};
use crate::command::{Asking, Command, ENTRIES_AT, ENTRY, RawLine, Refusal, Rows, Size, Told};

struct House {
    size: Size,
    rows: Rows,
}

impl House {
    fn new(desks: u64, items: u64, room: u64) -> Self {
        let size = Size { desks, items, room };
        House { size, rows: Rows::new(size) }
    }

    fn perform(&mut self, command: Command) -> Told {
        let lent = Lent::whole(&self.rows);
        perform(self.size, &mut self.rows, lent, &command)
    }

    fn write(&mut self, item: u64, value: u64) {
        assert_eq!(self.perform(Command::Write { desk: 0, item, value }), Told::Done);
    }

    fn script(&mut self, item: u64, lines: &[RawLine]) {
        assert_eq!(self.perform(Command::Script { desk: 0, item, lines: lines.to_vec() }), Told::Done);
    }

    /// What is told of a build, the list, and the count of entries after it.
    fn build(&mut self, desk: u64, item: u64) -> (Told, Vec<u64>, u64) {
        let told = self.perform(Command::Build { desk, item });
        let list = self.rows.ran[1..][..self.rows.ran[0] as usize].to_vec();
        (told, list, self.rows.store[0])
    }

    fn import(&mut self, lines: &[RawLine], askings: &[Asking], result: u64) -> Told {
        self.perform(Command::Import { lines: lines.to_vec(), askings: askings.to_vec(), result })
    }

    /// The command is refused so, and changes nothing.
    fn refuses(&mut self, command: Command, number: u64, place: u64) {
        let before = self.rows.clone();
        assert_eq!(self.perform(command), Told::Refused(Refusal::new(number, place)));
        assert_eq!(self.rows, before);
    }
}

const ADDS: [RawLine; 4] = [[0, 0, 0, 0], [0, 1, 1, 0], [3, 0, 0, 1], [5, 0, 0, 0]];

/// The desk that the rules work out.
fn worked_desk() -> House {
    let mut house = House::new(1, 8, 4);
    house.write(0, 5);
    house.write(1, 3);
    house.script(2, &ADDS);
    house.script(3, &[[0, 0, 2, 0], [2, 1, 8, 0], [4, 0, 1, 1], [0, 0, 4, 0], [5, 0, 0, 0]]);
    house.script(4, &[[0, 0, 3, 0], [5, 0, 0, 0]]);
    house.script(5, &[[0, 0, 1, 0], [1, 0, 0, 0], [5, 0, 0, 0]]);
    house.script(6, &[[0, 0, 900, 0], [5, 0, 0, 0]]);
    house.script(7, &[[0, 0, 7, 0]]);
    house
}

#[test]
fn the_worked_day() {
    let mut house = worked_desk();
    assert_eq!(house.build(0, 2), (Told::Value(8), vec![2], 1));
    assert_eq!(house.build(0, 5), (Told::Value(8), vec![3, 5], 3));
    assert_eq!(house.build(0, 5), (Told::Value(8), vec![], 3));
    house.write(0, 4);
    house.write(1, 4);
    assert_eq!(house.build(0, 5), (Told::Value(8), vec![2, 4, 5], 4));
    assert_eq!(house.build(0, 5), (Told::Value(8), vec![4, 5], 4));
    house.write(0, 1);
    assert_eq!(house.build(0, 3), (Told::Ring, vec![2], 4));
    assert_eq!(house.build(0, 5), (Told::Ring, vec![2], 4));
    assert_eq!(house.build(0, 6), (Told::Value(0), vec![6], 4));
    assert_eq!(house.build(0, 7), (Told::Ring, vec![], 4));
}

#[test]
fn an_entry_in_its_row() {
    let mut house = worked_desk();
    house.build(0, 2);
    let mut entry = [0; ENTRY];
    entry[..17].copy_from_slice(&[4, 0, 0, 0, 0, 0, 1, 1, 0, 3, 0, 0, 1, 5, 0, 0, 0]);
    entry[129..134].copy_from_slice(&[2, 0, 5, 1, 3]);
    entry[194] = 8;
    assert_eq!(house.rows.store[..ENTRIES_AT], [1, 4]);
    assert_eq!(house.rows.store[ENTRIES_AT..][..ENTRY], entry);
    assert!(house.rows.store[ENTRIES_AT + ENTRY..].iter().all(|&number| number == 0));
}

#[test]
fn desks_share_entries_and_nothing_else() {
    let mut house = House::new(2, 3, 4);
    for desk in 0..2 {
        house.perform(Command::Script { desk, item: 2, lines: ADDS.to_vec() });
    }
    assert_eq!(house.build(0, 2), (Told::Value(0), vec![2], 1));
    assert_eq!(house.build(1, 2), (Told::Value(0), vec![], 1));
    house.perform(Command::Write { desk: 1, item: 0, value: 6 });
    assert_eq!(house.build(0, 2), (Told::Value(0), vec![], 1));
    assert_eq!(house.build(1, 2), (Told::Value(6), vec![2], 2));
}

#[test]
fn lines_left_out_past_the_end_give_0_and_sums_wrap() {
    let mut house = House::new(1, 3, 0);
    house.script(1, &[[4, 0, 0, 32], [2, 0, 1, 0], [5, 0, 0, 0]]);
    assert_eq!(house.build(0, 1).0, Told::Value(0));
    house.script(2, &[[2, 0, u64::MAX, 0], [2, 1, 3, 0], [3, 0, 0, 1], [5, 0, 0, 0]]);
    assert_eq!(house.build(0, 2), (Told::Value(2), vec![2], 0));
}

#[test]
fn removing_moves_the_later_entries_up() {
    let mut house = House::new(1, 3, 3);
    for number in 1..=3 {
        assert_eq!(house.import(&[[2, 0, number, 0], [5, 0, 0, 0]], &[], number), Told::Done);
    }
    assert_eq!(house.perform(Command::Remove { entry: 1 }), Told::Done);
    let results: Vec<u64> = house.rows.store[ENTRIES_AT..].chunks(ENTRY).map(|entry| entry[ENTRY - 1]).collect();
    assert_eq!((house.rows.store[0], results), (2, vec![1, 3, 0]));
    house.refuses(Command::Remove { entry: 2 }, 8, 2);
}

#[test]
fn places_and_scripts_are_refused_in_order() {
    let mut house = House::new(2, 4, 0);
    let script = |desk, item, lines: &[RawLine]| Command::Script { desk, item, lines: lines.to_vec() };
    let bad = [9, 0, 0, 0];
    house.refuses(Command::Write { desk: 2, item: 4, value: 1 }, 2, 2);
    house.refuses(Command::Write { desk: 1, item: 4, value: 1 }, 3, 4);
    house.refuses(script(3, 0, &[bad]), 2, 3);
    house.refuses(script(0, 0, &[[0; 4]; 33]), 4, 32);
    house.refuses(script(0, 0, &[[0; 4], bad]), 5, 1);
    house.refuses(script(0, 0, &[[0; 4], [0; 4], [1, 0, 8, 0], bad]), 6, 2);
    house.refuses(script(0, 0, &[[3, 0, 0, 8]]), 6, 0);
    house.refuses(script(0, 0, &[[4, 8, 0, 33]]), 6, 0);
    house.refuses(script(0, 0, &[[5, 0, 99, 99], [4, 7, 7, 33]]), 7, 1);
    house.refuses(Command::Build { desk: 2, item: 0 }, 2, 2);
    house.refuses(Command::Build { desk: 0, item: 4 }, 3, 4);
}

#[test]
fn imports_are_refused_in_order() {
    let mut house = House::new(1, 2, 1);
    let import = |lines: &[RawLine], askings: &[Asking], result| Command::Import {
        lines: lines.to_vec(),
        askings: askings.to_vec(),
        result,
    };
    house.refuses(import(&[[0; 4]; 33], &[[0; 2]; 33], 0), 4, 32);
    house.refuses(import(&[[6, 0, 0, 0]], &[[0; 2]; 33], 0), 5, 0);
    house.refuses(import(&ADDS, &[[0; 2]; 33], 0), 9, 32);
    house.refuses(import(&ADDS, &[[0, 1], [2, 1]], 2), 10, 1);
    house.refuses(import(&ADDS, &[[0, 1]], 1), 10, 1);
    house.refuses(import(&ADDS, &[[0, 1], [1, 1]], 3), 10, 2);
    house.refuses(import(&ADDS, &[[0, 1], [1, 1], [1, 1]], 2), 10, 2);
    assert_eq!(house.import(&ADDS, &[[0, 1], [1, 1]], 2), Told::Done);
    house.refuses(import(&ADDS, &[[0, 1], [1, 1]], 3), 10, 2);
    house.refuses(import(&ADDS, &[[0, 1], [1, 2]], 3), 11, 1);
}

#[test]
fn rows_lent_too_short_are_refused_in_order() {
    let mut house = House::new(1, 3, 2);
    let whole = Lent::whole(&house.rows);
    let build = Command::Build { desk: 0, item: 0 };
    let mut refuses = |lent, number, place| {
        let before = house.rows.clone();
        let told = perform(house.size, &mut house.rows, lent, &build);
        assert_eq!(told, Told::Refused(Refusal::new(number, place)));
        assert_eq!(house.rows, before);
    };
    refuses(Lent { store: 391, ran: 3 }, 12, 391);
    refuses(Lent { store: 1, ..whole }, 12, 1);
    refuses(Lent { ran: 3, ..whole }, 14, 3);
    house.rows.store[0] = 3;
    let told = perform(house.size, &mut house.rows, Lent { ran: 3, ..whole }, &build);
    assert_eq!(told, Told::Refused(Refusal::new(13, 3)));
}
