//! Runs the proved library and the plain implementation on the same random days: `compare DAYS [SEED]`.
use bench::command::{Command, Rows, Told};
use bench::days::Day;
use bench::{ours, plain};
use std::env;
use std::process::ExitCode;

/// What happened on the days, to see that they are worth comparing.
#[derive(Default)]
struct Tally {
    commands: u64,
    values: u64,
    rings: u64,
    ran: u64,
    nothing_ran: u64,
    imported: u64,
    refused: [u64; 15],
}

impl Tally {
    fn count(&mut self, command: &Command, told: Told, rows: &Rows) {
        self.commands += 1;
        match told {
            Told::Refused(refusal) => self.refused[refusal.number as usize] += 1,
            Told::Value(_) => self.values += 1,
            Told::Ring => self.rings += 1,
            Told::Done => self.imported += u64::from(matches!(command, Command::Import { .. })),
        }
        if matches!(told, Told::Value(_) | Told::Ring) {
            self.ran += rows.ran[0];
            self.nothing_ran += u64::from(rows.ran[0] == 0);
        }
    }

    fn print(&self) {
        println!("{} commands: {} builds told a value, {} ring", self.commands, self.values, self.rings);
        println!(
            "{} scripts were run; {} builds ran none; {} entries were imported",
            self.ran, self.nothing_ran, self.imported
        );
        print!("refused:");
        for number in 2..self.refused.len() {
            print!(" {number}: {}", self.refused[number]);
        }
        println!();
    }
}

/// One day on both; the first difference, if there is one.
fn compare(seed: u64, tally: &mut Tally) -> Result<(), String> {
    let mut day = Day::new(seed);
    let mut left = Rows::new(day.size);
    let mut right = left.clone();
    for deed in 0..day.length() {
        let (command, lent) = day.command(&left);
        let kept = left.store[0];
        let claim = day.false_claim().filter(|_| matches!(command, Command::Build { .. }));
        for rows in [&mut left, &mut right] {
            rows.store[0] = claim.unwrap_or(kept);
        }
        let told_left = ours::perform(day.size, &mut left, lent, &command);
        let told_right = plain::perform(day.size, &mut right, lent, &command);
        let what = || format!("seed {seed}, {:?}, deed {deed}, {command:?}, {lent:?}", day.size);
        if told_left != told_right {
            return Err(format!("{}: told {told_left:?}, and by the plain program {told_right:?}", what()));
        }
        for (row, ours, plain) in [
            ("desks", &left.desks, &right.desks),
            ("store", &left.store, &right.store),
            ("list", &left.ran, &right.ran),
        ] {
            if ours != plain {
                let at = (0..ours.len()).find(|&at| ours[at] != plain[at]);
                return Err(format!("{}: the row of the {row} differs at {at:?}", what()));
            }
        }
        tally.count(&command, told_left, &left);
        if claim.is_some() {
            // The command was refused: the store holds what it held.
            left.store[0] = kept;
            right.store[0] = kept;
        }
    }
    Ok(())
}

fn main() -> ExitCode {
    let mut arguments = env::args().skip(1).map(|word| word.parse::<u64>().expect("compare DAYS [SEED]"));
    let days = arguments.next().unwrap_or(5000);
    let first = arguments.next().unwrap_or(1);
    let mut tally = Tally::default();
    for seed in first..first + days {
        if let Err(difference) = compare(seed, &mut tally) {
            println!("{difference}");
            return ExitCode::FAILURE;
        }
    }
    tally.print();
    println!("{days} days from seed {first}: every answer, refusal, list and row the same");
    ExitCode::SUCCESS
}
