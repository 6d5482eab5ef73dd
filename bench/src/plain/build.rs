//! The build that remembers.
use super::lookup::Lookup;
use super::script::{Machine, Step, lines_in};
use super::store::{ASKINGS_AT, RESULT_AT, check_store, write_run};
use crate::command::{Asking, ENTRIES_AT, ENTRY, ITEM, MAX_ASKINGS, MAX_ITEMS, Refusal, SCRIPT, Told};

/// An item that is needed for itself.
struct Ring;

#[derive(Clone, Copy)]
enum State {
    Unseen,
    Open,
    Known(u64),
}

/// The askings of one run, as a part of all that were recorded.
#[derive(Clone, Copy)]
struct Run {
    start: u32,
    count: u32,
}

struct Build<'a> {
    /// The items of the desk, and the entries that the store holds as the build begins.
    items: &'a [[u64; ITEM]],
    entries: &'a [[u64; ENTRY]],
    lookup: Lookup,
    states: [State; MAX_ITEMS],
    runs: [Option<Run>; MAX_ITEMS],
    recorded: Vec<Asking>,
}

impl Build<'_> {
    fn value(&mut self, item: u64) -> Result<u64, Ring> {
        let Some(row) = self.items.get(item as usize) else {
            return Ok(0);
        };
        if row[0] == 0 {
            return Ok(row[1]);
        }
        let item = item as usize;
        match self.states[item] {
            State::Known(value) => Ok(value),
            State::Open => Err(Ring),
            State::Unseen => {
                self.states[item] = State::Open;
                let value = self.make(item, &row[1..])?;
                self.states[item] = State::Known(value);
                Ok(value)
            }
        }
    }

    /// The value of a made item: by an entry if one saves it, and otherwise by a run.
    fn make(&mut self, item: usize, script: &[u64]) -> Result<u64, Ring> {
        let used = 1 + 4 * script[0] as usize;
        let mut at = self.lookup.first(script);
        while let Some(entry) = self.entries.get(at) {
            if entry[..used] == script[..used] && self.agrees(entry)? {
                return Ok(entry[RESULT_AT]);
            }
            at = self.lookup.after(at);
        }
        self.run(item, script)
    }

    /// Whether all answers of the entry are right still; what comes after one that is not is not looked at.
    fn agrees(&mut self, entry: &[u64; ENTRY]) -> Result<bool, Ring> {
        let (askings, _) = entry[ASKINGS_AT..RESULT_AT].as_chunks::<2>();
        for &[item, answer] in &askings[..MAX_ASKINGS.min(entry[SCRIPT] as usize)] {
            if self.value(item)? != answer {
                return Ok(false);
            }
        }
        Ok(true)
    }

    fn run(&mut self, item: usize, script: &[u64]) -> Result<u64, Ring> {
        let lines = lines_in(script);
        let mut machine = Machine::default();
        let mut askings = [[0; 2]; MAX_ASKINGS];
        let mut count = 0;
        loop {
            match machine.run(lines) {
                Step::Asks(asked) => {
                    let answer = self.value(asked)?;
                    askings[count] = [asked, answer];
                    count += 1;
                    machine.answer(answer);
                }
                Step::Gives(result) => {
                    self.runs[item] = Some(Run { start: self.recorded.len() as u32, count: count as u32 });
                    self.recorded.extend_from_slice(&askings[..count]);
                    return Ok(result);
                }
            }
        }
    }
}

/// Refusals 3, 12, 13 and 14, in this order; then the item is built.
pub fn build_item(desk: &[u64], store: &mut [u64], ran: &mut [u64], item: u64) -> Told {
    build_by(|_| Lookup::All, desk, store, ran, item).unwrap_or_else(Told::Refused)
}

/// The same, with the entries filed by their scripts as the build begins.
pub fn build_item_indexed(desk: &[u64], store: &mut [u64], ran: &mut [u64], item: u64) -> Told {
    build_by(Lookup::hashed, desk, store, ran, item).unwrap_or_else(Told::Refused)
}

fn build_by(
    lookup: impl Fn(&[[u64; ENTRY]]) -> Lookup,
    desk: &[u64],
    store: &mut [u64],
    ran: &mut [u64],
    item: u64,
) -> Result<Told, Refusal> {
    let (items, _) = desk[1..].as_chunks::<ITEM>();
    let items = &items[..desk[0] as usize];
    if item >= items.len() as u64 {
        return Err(Refusal::new(3, item));
    }
    check_store(store)?;
    if ran.len() < items.len() + 1 {
        return Err(Refusal::new(14, ran.len() as u64));
    }
    let count = store[0] as usize;
    let room = store[1] as usize;
    let (entries, free) = store[ENTRIES_AT..].split_at_mut(ENTRY * count);
    let (entries, _) = entries.as_chunks();
    let mut build = Build {
        items,
        entries,
        lookup: lookup(entries),
        states: [State::Unseen; MAX_ITEMS],
        runs: [None; MAX_ITEMS],
        recorded: Vec::new(),
    };
    let told = match build.value(item) {
        Ok(value) => Told::Value(value),
        Err(Ring) => Told::Ring,
    };
    let (free, _) = free.as_chunks_mut::<ENTRY>();
    let kept = build.finish(&mut free[..room - count], ran);
    store[0] += kept;
    Ok(told)
}

impl Build<'_> {
    /// Lists what ran, by rising number, and keeps as many entries as there is room for: so many.
    fn finish(&self, free: &mut [[u64; ENTRY]], ran: &mut [u64]) -> u64 {
        let mut due = 0;
        for (item, (row, run)) in self.items.iter().zip(&self.runs).enumerate() {
            let (Some(Run { start, count }), State::Known(value)) = (run, self.states[item]) else {
                continue;
            };
            if let Some(entry) = free.get_mut(due) {
                entry[..SCRIPT].copy_from_slice(&row[1..]);
                write_run(entry, &self.recorded[*start as usize..][..*count as usize], value);
            }
            due += 1;
            ran[due] = item as u64;
        }
        ran[0] = due as u64;
        due.min(free.len()) as u64
    }
}
