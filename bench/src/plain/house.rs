//! Commands on the rows of a house.
use super::build::build_item;
use super::script::{check_lines, write_lines};
use super::store::{import, remove};
use crate::command::{Command, ITEM, Refusal, Rows, Size, Told};

/// The numbers of a desk, with its count of items in front.
fn desk_of(size: Size, desks: &mut [u64], desk: u64) -> Result<&mut [u64], Refusal> {
    if desk >= size.desks {
        return Err(Refusal::new(2, desk));
    }
    let numbers = 1 + ITEM * size.items as usize;
    Ok(&mut desks[numbers * desk as usize..][..numbers])
}

fn item_of(size: Size, desks: &mut [u64], desk: u64, item: u64) -> Result<&mut [u64], Refusal> {
    let desk = desk_of(size, desks, desk)?;
    if item >= size.items {
        return Err(Refusal::new(3, item));
    }
    Ok(&mut desk[1 + ITEM * item as usize..][..ITEM])
}

/// The list's row and the store's may be lent shorter than they are, as a caller may who is to be refused.
pub fn perform(size: Size, rows: &mut Rows, lent: Lent, command: &Command) -> Told {
    perform_checked(size, rows, lent, command).unwrap_or_else(Told::Refused)
}

/// How much of the store's and of the list's row is lent to a build.
#[derive(Clone, Copy, Debug)]
pub struct Lent {
    pub store: usize,
    pub ran: usize,
}

impl Lent {
    pub fn whole(rows: &Rows) -> Self {
        Lent { store: rows.store.len(), ran: rows.ran.len() }
    }
}

fn perform_checked(size: Size, rows: &mut Rows, lent: Lent, command: &Command) -> Result<Told, Refusal> {
    match *command {
        Command::Write { desk, item, value } => {
            let row = item_of(size, &mut rows.desks, desk, item)?;
            row.fill(0);
            row[1] = value;
        }
        Command::Script { desk, item, ref lines } => {
            let row = item_of(size, &mut rows.desks, desk, item)?;
            check_lines(lines)?;
            row[0] = 1;
            write_lines(&mut row[1..], lines);
        }
        Command::Build { desk, item } => {
            let desk = desk_of(size, &mut rows.desks, desk)?;
            return Ok(build_item(desk, &mut rows.store[..lent.store], &mut rows.ran[..lent.ran], item));
        }
        Command::Remove { entry } => remove(&mut rows.store, entry)?,
        Command::Import { ref lines, ref askings, result } => {
            check_lines(lines)?;
            import(&mut rows.store, lines, askings, result)?;
        }
    }
    Ok(Told::Done)
}
