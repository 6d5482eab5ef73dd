//! Rows that nobody kept, through the proved library: `junk CASES [SEED]`. Every answer has to be as the contracts say.
use bench::command::{Command, ENTRIES_AT, ENTRY, ITEM, MAX_ITEMS, Refusal, Rows, Size, Told};
use bench::ours;
use bench::plain::Lent;
use bench::random::Random;
use std::env;
use std::process::ExitCode;


/// A number as it may stand in a spoiled row: mostly small, sometimes enormous.
fn number(random: &mut Random) -> u64 {
    match random.below(8) {
        0..=3 => random.below(7),
        4..=5 => random.below(300),
        6 => u64::MAX - random.below(300),
        _ => random.number(),
    }
}

fn row(random: &mut Random, most: u64) -> Vec<u64> {
    let length = random.below(most + 1);
    (0..length).map(|_| number(random)).collect()
}

fn at(row: &[u64], place: usize) -> u64 {
    row.get(place).copied().unwrap_or(0)
}

/// Some rows get a head that lets the build go on past the first checks.
fn store_row(random: &mut Random) -> Vec<u64> {
    let mut store = row(random, 2 + 6 * ENTRY as u64);
    if random.chance(70) && store.len() >= 2 {
        store[1] = (store.len() as u64 - 2) / ENTRY as u64;
        store[0] = random.below(store[1] + 2);
    }
    store
}

fn desk_row(random: &mut Random) -> Vec<u64> {
    let mut desk = row(random, 1 + 20 * ITEM as u64);
    if random.chance(70) && !desk.is_empty() {
        desk[0] = random.below(desk.len() as u64 / ITEM as u64 + 3);
    }
    desk
}

/// The refusal of a build by the rules, over whatever rows are lent.
fn refusal(items: u64, store: &[u64], ran: &[u64], item: u64) -> Option<Refusal> {
    let (count, room) = (at(store, 0), at(store, 1));
    let needed = room.checked_mul(ENTRY as u64).and_then(|numbers| numbers.checked_add(2));
    if item >= items {
        Some(Refusal::new(3, item))
    } else if needed.is_none_or(|needed| needed > store.len() as u64) {
        Some(Refusal::new(12, store.len() as u64))
    } else if count > room {
        Some(Refusal::new(13, count))
    } else if (ran.len() as u64) < items + 1 {
        Some(Refusal::new(14, ran.len() as u64))
    } else {
        None
    }
}

/// What has to hold of every build that is not refused: the old entries, the room and what lies past the new ones stay,
/// the count grows by what was listed as far as there is room, and the list rises and names items of the desk.
fn kept_to_its_rows(items: u64, before: &[u64], store: &[u64], ran: &[u64], list: &[u64]) -> Result<(), String> {
    let (old, new, room) = (before[0], store[0], before[1]);
    let listed = list[0];
    if listed > items || !(1..listed as usize).all(|i| list[i] < list[i + 1]) {
        return Err("the list does not rise".into());
    }
    if (1..=listed as usize).any(|i| list[i] >= items) {
        return Err("the list names an item that is not there".into());
    }
    if list[1 + listed as usize..] != ran[1 + listed as usize..] {
        return Err("the list's row changed behind the list".into());
    }
    if new != room.min(old + listed) {
        return Err(format!("{old} entries became {new}, {listed} listed, room {room}"));
    }
    let (first, end) = (ENTRIES_AT + ENTRY * old as usize, ENTRIES_AT + ENTRY * new as usize);
    if store[1..first] != before[1..first] || store[end..] != before[end..] {
        return Err("the store changed outside of its new entries".into());
    }
    Ok(())
}

fn build(random: &mut Random) -> Result<bool, String> {
    let (desk, before, before_list) = (desk_row(random), store_row(random), row(random, 40));
    let (mut store, mut ran) = (before.clone(), before_list.clone());
    let items = at(&desk, 0).min(MAX_ITEMS as u64);
    let item = if random.chance(80) { random.below(items.max(1)) } else { number(random) };
    let told = ours::build_item(&desk, &mut store, &mut ran, item);
    match (told, refusal(items, &before, &before_list, item)) {
        (Told::Refused(told), Some(expected)) if told == expected => {
            if store == before && ran == before_list { Ok(false) } else { Err("a refusal changed a row".into()) }
        }
        (Told::Value(_) | Told::Ring, None) => {
            kept_to_its_rows(items, &before, &store, &before_list, &ran).map(|()| true)
        }
        (told, expected) => Err(format!("told {told:?}, by the rules {expected:?}")),
    }
}

/// A write over spoiled rows changes only the item's own numbers, or is refused and changes nothing.
fn write(random: &mut Random) -> Result<bool, String> {
    let mut rows = Rows { desks: desk_row(random), store: store_row(random), ran: row(random, 40) };
    let items = if random.chance(80) { at(&rows.desks, 0) } else { number(random) };
    let size = Size { desks: random.below(10), items, room: number(random) };
    let before = rows.clone();
    let (desk, item) = (random.below(3), random.below(8));
    let lent = Lent::whole(&rows);
    let told = ours::perform(size, &mut rows, lent, &Command::Write { desk, item, value: 7 });
    if rows.store != before.store || rows.ran != before.ran {
        return Err("a write changed the store or the list".into());
    }
    let changed: Vec<usize> = (0..rows.desks.len()).filter(|&i| rows.desks[i] != before.desks[i]).collect();
    match told {
        Told::Refused(_) if changed.is_empty() => Ok(false),
        Told::Done if changed.iter().all(|i| i - changed[0] < ITEM) => Ok(true),
        told => Err(format!("told {told:?}, and {} numbers changed", changed.len())),
    }
}

fn main() -> ExitCode {
    let numbers: Vec<u64> = env::args().skip(1).filter_map(|word| word.parse().ok()).collect();
    let cases = numbers.first().copied().unwrap_or(1000);
    let seed = numbers.get(1).copied().unwrap_or(1);
    let (mut built, mut written, mut faults) = (0, 0, 0);
    for case in seed..seed + cases {
        let random = &mut Random::new(case);
        let (outcome, done) =
            if case % 4 == 0 { (write(random), &mut written) } else { (build(random), &mut built) };
        match outcome {
            Ok(went) => *done += u64::from(went),
            Err(fault) => {
                println!("case {case}: {fault}");
                faults += 1;
            }
        }
    }
    println!("{cases} cases from seed {seed}: {built} builds and {written} writes went on, the others were refused; {faults} faults");
    ExitCode::from(u8::from(faults > 0))
}
