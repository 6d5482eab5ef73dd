//! The store in its row: the count kept, the room, and 195 numbers an entry.
use super::script::{replay, write_lines};
use crate::command::{Asking, ENTRIES_AT, ENTRY, MAX_ASKINGS, RawLine, Refusal, SCRIPT};

/// The askings of an entry, behind its script.
pub const ASKINGS_AT: usize = SCRIPT + 1;
pub const RESULT_AT: usize = ENTRY - 1;

/// Refusals 12 and 13.
pub fn check_store(store: &[u64]) -> Result<(), Refusal> {
    let &[count, room, ref entries @ ..] = store else {
        return Err(Refusal::new(12, store.len() as u64));
    };
    if (entries.len() as u128) < ENTRY as u128 * u128::from(room) {
        return Err(Refusal::new(12, store.len() as u64));
    }
    if count > room {
        return Err(Refusal::new(13, count));
    }
    Ok(())
}

/// Puts the askings and the result behind the script of an entry.
pub fn write_run(entry: &mut [u64], askings: &[Asking], result: u64) {
    entry[SCRIPT] = askings.len() as u64;
    let used = ASKINGS_AT + 2 * askings.len();
    entry[ASKINGS_AT..used].copy_from_slice(askings.as_flattened());
    entry[used..RESULT_AT].fill(0);
    entry[RESULT_AT] = result;
}

/// Refusals 9 to 11; the lines are checked.
pub fn import(store: &mut [u64], lines: &[RawLine], askings: &[Asking], result: u64) -> Result<(), Refusal> {
    if askings.len() > MAX_ASKINGS {
        return Err(Refusal::new(9, MAX_ASKINGS as u64));
    }
    replay(lines, askings, result).map_err(|at| Refusal::new(10, at as u64))?;
    let (count, room) = (store[0], store[1]);
    if count >= room {
        return Err(Refusal::new(11, room));
    }
    let entry = &mut store[ENTRIES_AT + ENTRY * count as usize..][..ENTRY];
    write_lines(entry, lines);
    write_run(entry, askings, result);
    store[0] += 1;
    Ok(())
}

pub fn remove(store: &mut [u64], index: u64) -> Result<(), Refusal> {
    let count = store[0];
    if index >= count {
        return Err(Refusal::new(8, index));
    }
    let entries = &mut store[ENTRIES_AT..ENTRIES_AT + ENTRY * count as usize];
    let at = ENTRY * index as usize;
    entries.copy_within(at + ENTRY.., at);
    let freed = entries.len() - ENTRY;
    entries[freed..].fill(0);
    store[0] -= 1;
    Ok(())
}
