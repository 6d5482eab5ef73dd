//! The rules word for word, slow and without state, to hold the build against on random days.
use super::script::{Machine, Step, lines_in};
use super::store::{ASKINGS_AT, RESULT_AT};
use super::{Lent, build_item_indexed, perform};
use crate::command::{Asking, Command, ENTRIES_AT, ENTRY, ITEM, Rows, SCRIPT, Told};
use crate::days::Day;
use std::collections::BTreeSet;

/// The items of a desk, each looked at no deeper than one more than their count.
struct Desk<'a> {
    items: &'a [[u64; ITEM]],
}

/// What one run of a script leaves, if every asking has an answer; and the items that it asks for, up to the first without.
struct Run {
    asked: Vec<u64>,
    left: Option<(Vec<Asking>, u64)>,
}

impl Desk<'_> {
    fn script(&self, item: u64) -> Option<&[u64]> {
        let row = self.items.get(usize::try_from(item).ok()?)?;
        (row[0] == 1).then_some(&row[1..])
    }

    fn clean(&self, item: u64, depth: usize) -> Option<u64> {
        match self.script(item) {
            None => Some(self.items.get(item as usize).map_or(0, |row| row[1])),
            Some(_) if depth == 0 => None,
            Some(script) => self.run(script, depth - 1).left.map(|(_, result)| result),
        }
    }

    fn value(&self, item: u64) -> Option<u64> {
        self.clean(item, self.items.len() + 1)
    }

    fn run(&self, script: &[u64], depth: usize) -> Run {
        let mut machine = Machine::default();
        let (mut asked, mut askings) = (Vec::new(), Vec::new());
        loop {
            match machine.run(lines_in(script)) {
                Step::Gives(result) => return Run { asked, left: Some((askings, result)) },
                Step::Asks(item) => {
                    asked.push(item);
                    let Some(answer) = self.clean(item, depth) else {
                        return Run { asked, left: None };
                    };
                    askings.push([item, answer]);
                    machine.answer(answer);
                }
            }
        }
    }

    /// What a build of the item looks at.
    fn looked_at(&self, item: u64) -> BTreeSet<u64> {
        let mut seen = BTreeSet::new();
        let mut open = vec![item];
        while let Some(item) = open.pop() {
            if seen.insert(item) {
                if let Some(script) = self.script(item) {
                    open.extend(self.run(script, self.items.len() + 1).asked);
                }
            }
        }
        seen
    }

    fn saves(&self, entry: &[u64], script: &[u64]) -> bool {
        let askings = &entry[ASKINGS_AT..RESULT_AT].as_chunks::<2>().0[..entry[SCRIPT] as usize];
        entry[..SCRIPT] == *script && askings.iter().all(|&[item, answer]| self.value(item) == Some(answer))
    }
}

/// The answer, the list and the store that the rules say for a build that is not refused.
fn built(desk: &[u64], store: &[u64], item: u64) -> (Told, Vec<u64>, Vec<u64>) {
    let desk = Desk { items: desk[1..].as_chunks().0 };
    let entries = &store[ENTRIES_AT..].as_chunks::<ENTRY>().0[..store[0] as usize];
    let (mut list, mut after) = (Vec::new(), store.to_vec());
    for item in desk.looked_at(item) {
        let Some(script) = desk.script(item) else { continue };
        let Some((askings, result)) = desk.run(script, desk.items.len() + 1).left else { continue };
        if entries.iter().any(|entry| desk.saves(entry, script)) {
            continue;
        }
        list.push(item);
        if after[0] < after[1] {
            let free = ENTRIES_AT + ENTRY * after[0] as usize;
            let entry = &mut after[free..][..ENTRY];
            entry.fill(0);
            entry[..SCRIPT].copy_from_slice(script);
            entry[SCRIPT] = askings.len() as u64;
            entry[ASKINGS_AT..][..2 * askings.len()].copy_from_slice(askings.as_flattened());
            entry[RESULT_AT] = result;
            after[0] += 1;
        }
    }
    (desk.value(item).map_or(Told::Ring, Told::Value), list, after)
}

/// Looking without a memory takes long where items are asked for again and again: such desks are left out.
const MOST_ITEMS: u64 = 8;

#[test]
fn builds_on_random_days_are_as_the_rules_say() {
    let mut builds = 0;
    for seed in 0..400 {
        let mut day = Day::new(seed);
        let mut rows = Rows::new(day.size);
        for _ in 0..day.length() {
            if day.size.items > MOST_ITEMS {
                break;
            }
            let (command, _) = day.command(&rows);
            let mut before = rows.clone();
            let lent = Lent::whole(&rows);
            let told = perform(day.size, &mut rows, lent, &command);
            let Command::Build { desk, item } = command else { continue };
            if matches!(told, Told::Refused(_)) {
                continue;
            }
            let numbers = 1 + ITEM * day.size.items as usize;
            let desk = &before.desks[numbers * desk as usize..][..numbers];
            let (said, list, store) = built(desk, &before.store, item);
            assert_eq!(told, said, "seed {seed}");
            assert_eq!(rows.ran[1..][..rows.ran[0] as usize], list, "seed {seed}");
            assert_eq!(rows.store, store, "seed {seed}");
            let indexed = build_item_indexed(desk, &mut before.store, &mut before.ran, item);
            assert_eq!((indexed, &before.store, &before.ran), (told, &rows.store, &rows.ran), "seed {seed}");
            builds += 1;
        }
    }
    assert!(builds > 1000, "{builds}");
}
