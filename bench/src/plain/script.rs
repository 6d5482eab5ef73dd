//! Scripts: which are allowed, how they run from one asking to the next, and whether a record of a run replays.
use crate::command::{Asking, MAX_LINES, RawLine, Refusal, SCRIPT};

const ASK: u64 = 0;
const ASK_AT: u64 = 1;
const NUMBER: u64 = 2;
const SUM: u64 = 3;
const UNLESS: u64 = 4;

const REGISTERS: usize = 8;
const MAX_SKIP: u64 = 32;

/// Refusals 4 to 7: too many lines first, as the list has it, and then the first line at fault.
pub fn check_lines(lines: &[RawLine]) -> Result<(), Refusal> {
    if lines.len() > MAX_LINES {
        return Err(Refusal::new(4, MAX_LINES as u64));
    }
    for (at, &[kind, a, b, c]) in lines.iter().enumerate() {
        let registers: &[u64] = match kind {
            0 | 2 | 5 => &[a],
            1 | 4 => &[a, b],
            3 => &[a, b, c],
            _ => return Err(Refusal::new(5, at as u64)),
        };
        if registers.iter().any(|&r| r >= REGISTERS as u64) {
            return Err(Refusal::new(6, at as u64));
        }
        if kind == UNLESS && c > MAX_SKIP {
            return Err(Refusal::new(7, at as u64));
        }
    }
    Ok(())
}

/// The line with what its kind does not use set to 0.
fn in_form([kind, a, b, c]: RawLine) -> RawLine {
    match kind {
        SUM | UNLESS => [kind, a, b, c],
        ASK | ASK_AT | NUMBER => [kind, a, b, 0],
        _ => [kind, a, 0, 0],
    }
}

/// Writes checked lines into a row of their own.
pub fn write_lines(row: &mut [u64], lines: &[RawLine]) {
    row[..SCRIPT].fill(0);
    row[0] = lines.len() as u64;
    for (place, &line) in row[1..].as_chunks_mut::<4>().0.iter_mut().zip(lines) {
        *place = in_form(line);
    }
}

/// The lines of a script in its row.
pub fn lines_in(row: &[u64]) -> &[RawLine] {
    let (lines, _) = row[1..SCRIPT].as_chunks::<4>();
    &lines[..MAX_LINES.min(row[0] as usize)]
}

pub enum Step {
    Asks(u64),
    Gives(u64),
}

/// A script on its way: the registers, the next line, and the register that waits for an answer.
#[derive(Default)]
pub struct Machine {
    registers: [u64; REGISTERS],
    next: usize,
    waiting: usize,
}

impl Machine {
    pub fn answer(&mut self, answer: u64) {
        self.registers[self.waiting] = answer;
    }

    /// Runs up to the next asking, or to the end.
    pub fn run(&mut self, lines: &[RawLine]) -> Step {
        let register = |r: u64| r as usize % REGISTERS;
        while let Some(&[kind, a, b, c]) = lines.get(self.next) {
            self.next += 1;
            match kind {
                ASK => {
                    self.waiting = register(a);
                    return Step::Asks(b);
                }
                ASK_AT => {
                    self.waiting = register(a);
                    return Step::Asks(self.registers[register(b)]);
                }
                NUMBER => self.registers[register(a)] = b,
                SUM => {
                    let (b, c) = (self.registers[register(b)], self.registers[register(c)]);
                    self.registers[register(a)] = b.wrapping_add(c);
                }
                UNLESS => {
                    if self.registers[register(a)] == self.registers[register(b)] {
                        self.next += c.min(MAX_SKIP) as usize;
                    }
                }
                _ => return Step::Gives(self.registers[register(a)]),
            }
        }
        Step::Gives(0)
    }
}

/// Ok if the lines, run on these answers alone, ask just so and give the result; otherwise the first asking that differs, or their count.
pub fn replay(lines: &[RawLine], askings: &[Asking], result: u64) -> Result<(), usize> {
    let mut machine = Machine::default();
    for (at, &[item, answer]) in askings.iter().enumerate() {
        match machine.run(lines) {
            Step::Asks(asked) if asked == item => machine.answer(answer),
            _ => return Err(at),
        }
    }
    match machine.run(lines) {
        Step::Gives(given) if given == result => Ok(()),
        _ => Err(askings.len()),
    }
}
