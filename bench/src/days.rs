//! Random days: a house, and commands for it, many of them to be refused.
use crate::command::{Asking, Command, ENTRIES_AT, ENTRY, RawLine, Rows, SCRIPT, Size};
use crate::plain::{Lent, Machine, Step};
use crate::random::Random;

/// Scripts that the desks of a day share.
const POOL: u64 = 6;

/// A script that mostly asks for items below a level.
struct Shared {
    level: u64,
    lines: Vec<RawLine>,
}

pub struct Day {
    random: Random,
    pub size: Size,
    scripts: Vec<Shared>,
    /// Items that are still to be given a first script or number.
    fresh: Vec<(u64, u64)>,
}

impl Day {
    pub fn new(seed: u64) -> Self {
        let mut random = Random::new(seed);
        let items = if random.chance(10) { 1 + random.below(60) } else { 1 + random.below(14) };
        let room = *random.pick(&[0, 1, 2, 3, 4, 6, 8, 16, 64]);
        let size = Size { desks: 1 + random.below(4), items, room };
        let mut scripts: Vec<Shared> = (0..POOL).map(|_| shared(&mut random, items)).collect();
        for at in 0..POOL as usize {
            let twin = twin(&mut random, &scripts[at]);
            scripts.push(twin);
        }
        let fresh = (0..size.desks).flat_map(|desk| (0..items.min(12)).map(move |item| (desk, item))).collect();
        Day { random, size, scripts, fresh }
    }

    /// How many commands make a day.
    pub fn length(&self) -> usize {
        self.fresh.len() + 50
    }

    /// The next command, which may depend on what the store holds, and how much of the rows is lent.
    pub fn command(&mut self, rows: &Rows) -> (Command, Lent) {
        let whole = Lent::whole(rows);
        if let Some((desk, item)) = self.fresh.pop() {
            return (self.change(desk, item), whole);
        }
        match self.random.below(100) {
            0..25 => {
                let (desk, item) = (self.desk(), self.item());
                (self.change(desk, item), whole)
            }
            25..82 => (Command::Build { desk: self.desk(), item: self.item() }, self.lent(whole)),
            82..88 => (Command::Remove { entry: self.random.below(rows.store[0] + 2) }, whole),
            _ => (self.import(rows), whole),
        }
    }

    /// Low items are mostly written, and high ones mostly made.
    fn change(&mut self, desk: u64, item: u64) -> Command {
        if self.random.below(6) > item {
            return Command::Write { desk, item, value: self.value() };
        }
        Command::Script { desk, item, lines: self.given(item) }
    }

    fn desk(&mut self) -> u64 {
        let absent = self.random.chance(2);
        if absent { self.size.desks + self.random.below(300) } else { self.random.below(self.size.desks) }
    }

    fn item(&mut self) -> u64 {
        let absent = self.random.chance(2);
        if absent { self.size.items + self.random.below(300) } else { self.random.below(self.size.items) }
    }

    /// Mostly small, so that sums meet and numbers name items.
    fn value(&mut self) -> u64 {
        if self.random.chance(5) { self.random.number() } else { self.random.below(self.size.items.min(6) + 1) }
    }

    /// Now and then too little of the store or of the list is lent to a build.
    fn lent(&mut self, whole: Lent) -> Lent {
        match self.random.below(60) {
            0 => Lent { store: self.random.below(whole.store as u64) as usize, ..whole },
            1 => Lent { ran: self.random.below(whole.ran as u64) as usize, ..whole },
            _ => whole,
        }
    }

    /// A count of entries above the room, that a store may falsely claim as it is lent to a build.
    pub fn false_claim(&mut self) -> Option<u64> {
        let more = 1 + self.random.below(3);
        self.random.chance(1).then_some(self.size.room + more)
    }

    fn given(&mut self, item: u64) -> Vec<RawLine> {
        let any = self.random.chance(15);
        let fitting: Vec<&Shared> = self.scripts.iter().filter(|shared| any || shared.level <= item).collect();
        let lines = if fitting.is_empty() { Vec::new() } else { self.random.pick(&fitting).lines.clone() };
        if self.random.chance(8) { spoilt(&mut self.random, lines) } else { lines }
    }

    fn import(&mut self, rows: &Rows) -> Command {
        let known = rows.store[0] > 0 && self.random.chance(40);
        let (lines, askings, result) = if known { self.kept(rows) } else { self.recorded() };
        match self.random.below(10) {
            0 => Command::Import { lines: spoilt(&mut self.random, lines), askings, result },
            1..5 => self.dishonest(lines, askings, result),
            _ => Command::Import { lines, askings, result },
        }
    }

    /// An entry that the store holds.
    fn kept(&mut self, rows: &Rows) -> (Vec<RawLine>, Vec<Asking>, u64) {
        let index = self.random.below(rows.store[0]) as usize;
        let entry = &rows.store[ENTRIES_AT + ENTRY * index..][..ENTRY];
        let lines = entry[1..SCRIPT].as_chunks().0[..entry[0] as usize].to_vec();
        let askings = entry[SCRIPT + 1..].as_chunks().0[..entry[SCRIPT] as usize].to_vec();
        (lines, askings, entry[ENTRY - 1])
    }

    /// An entry of a run that nobody made, on answers out of the air.
    fn recorded(&mut self) -> (Vec<RawLine>, Vec<Asking>, u64) {
        let lines = self.random.pick(&self.scripts).lines.clone();
        let mut machine = Machine::default();
        let mut askings = Vec::new();
        loop {
            match machine.run(&lines) {
                Step::Asks(item) => {
                    let answer = self.value();
                    askings.push([item, answer]);
                    machine.answer(answer);
                }
                Step::Gives(result) => return (lines, askings, result),
            }
        }
    }

    /// One number of it changed, an asking too many or too few, or far too many.
    fn dishonest(&mut self, lines: Vec<RawLine>, mut askings: Vec<Asking>, mut result: u64) -> Command {
        let count = askings.len() as u64;
        match self.random.below(6) {
            0 => result = result.wrapping_add(1 + self.random.below(3)),
            1 | 2 if count > 0 => {
                let asking = self.random.below(count) as usize;
                let part = self.random.below(2) as usize;
                askings[asking][part] = self.value();
            }
            3 if count > 0 => {
                askings.remove(self.random.below(count) as usize);
            }
            4 => askings.insert(self.random.below(count + 1) as usize, [self.item(), self.value()]),
            _ => askings.resize(33 + self.random.below(8) as usize, [0, 0]),
        }
        Command::Import { lines, askings, result }
    }
}

fn shared(random: &mut Random, items: u64) -> Shared {
    let level = 1 + random.below(items);
    Shared { level, lines: script(random, level) }
}

/// The same script but for one line, often the last.
fn twin(random: &mut Random, of: &Shared) -> Shared {
    let mut lines = of.lines.clone();
    let at =
        if random.chance(50) { lines.len().saturating_sub(1) } else { random.below(1 + lines.len() as u64) as usize };
    if let Some(place) = lines.get_mut(at) {
        *place = match *place {
            [3, r, a, b] => [3, r, a, (b + 1) % 4],
            [5, r, ..] => [5, (r + 1) % 4, 0, 0],
            _ => line(random, of.level),
        };
    }
    Shared { level: of.level, lines }
}

fn script(random: &mut Random, level: u64) -> Vec<RawLine> {
    let count = match random.below(20) {
        0 => 0,
        1 => 32,
        2..5 => 1 + random.below(31),
        _ => 2 + random.below(6),
    };
    (0..count).map(|_| line(random, level)).collect()
}

fn line(random: &mut Random, level: u64) -> RawLine {
    let mut register = || random.below(8) % 4;
    let (r, a, b) = (register(), register(), register());
    let unused = if random.chance(10) { random.below(40) } else { 0 };
    match random.below(100) {
        0..40 => {
            let bound = if random.chance(5) { level + 900 } else { level };
            [0, r, random.below(bound), unused]
        }
        40..52 => [1, r, a, unused],
        52..62 => [2, r, random.below(level + 2), unused],
        62..78 => [3, r, a, b],
        78..90 => [4, a, b, if random.chance(10) { random.below(33) } else { random.below(4) }],
        _ => [5, r, unused, unused],
    }
}

/// A script that is to be refused: too many lines, a kind, a register or a number of lines left out that is too high.
fn spoilt(random: &mut Random, mut lines: Vec<RawLine>) -> Vec<RawLine> {
    if lines.is_empty() || random.chance(25) {
        let more = 1 + random.below(3) as usize;
        lines.resize(32 + more, [0, 0, 0, 0]);
    }
    for _ in 0..random.below(3) {
        let at = random.below(lines.len() as u64) as usize;
        match random.below(4) {
            0 => lines[at][0] = 6 + random.below(250),
            1 => lines[at][1] = 8 + random.below(250),
            2 => lines[at] = [3, 0, random.below(16), random.below(16)],
            _ => lines[at] = [4, 0, random.below(9), random.below(70)],
        }
    }
    lines
}
