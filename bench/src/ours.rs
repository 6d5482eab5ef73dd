//! The proved library, by its C functions.
use crate::command::{Asking, Command, RawLine, Refusal, Rows, Told};
use crate::plain::Lent;

#[repr(C)]
struct Size {
    desks: u64,
    items: u64,
    room: u64,
}

#[repr(C)]
struct Outcome {
    told: u64,
    number: u64,
    place: u64,
}

// A row crosses as a pointer and a length.
unsafe extern "C" {
    fn rupdaem_build_item(
        items: *const u64,
        items_len: usize,
        store: *mut u64,
        store_len: usize,
        ran: *mut u64,
        ran_len: usize,
        item: u64,
    ) -> Outcome;
    fn rupdaem_write(
        size: &Size,
        desks: *mut u64,
        desks_len: usize,
        store: *mut u64,
        store_len: usize,
        ran: *mut u64,
        ran_len: usize,
        desk: u64,
        item: u64,
        value: u64,
    ) -> Outcome;
    fn rupdaem_script(
        size: &Size,
        desks: *mut u64,
        desks_len: usize,
        store: *mut u64,
        store_len: usize,
        ran: *mut u64,
        ran_len: usize,
        desk: u64,
        item: u64,
        lines: *const RawLine,
        lines_len: usize,
    ) -> Outcome;
    fn rupdaem_build(
        size: &Size,
        desks: *mut u64,
        desks_len: usize,
        store: *mut u64,
        store_len: usize,
        ran: *mut u64,
        ran_len: usize,
        desk: u64,
        item: u64,
    ) -> Outcome;
    fn rupdaem_remove(
        size: &Size,
        desks: *mut u64,
        desks_len: usize,
        store: *mut u64,
        store_len: usize,
        ran: *mut u64,
        ran_len: usize,
        entry: u64,
    ) -> Outcome;
    fn rupdaem_import(
        size: &Size,
        desks: *mut u64,
        desks_len: usize,
        store: *mut u64,
        store_len: usize,
        ran: *mut u64,
        ran_len: usize,
        lines: *const RawLine,
        lines_len: usize,
        askings: *const Asking,
        askings_len: usize,
        result: u64,
    ) -> Outcome;
}

fn told(outcome: Outcome) -> Told {
    match outcome.told {
        0 => Told::Done,
        1 => Told::Value(outcome.number),
        2 => Told::Ring,
        3 => Told::Refused(Refusal::new(outcome.number, outcome.place)),
        other => panic!("the library told {other}"),
    }
}

pub fn build_item(desk: &[u64], store: &mut [u64], ran: &mut [u64], item: u64) -> Told {
    // The rows are whole slices, and the two that are written are borrowed apart.
    told(unsafe {
        rupdaem_build_item(
            desk.as_ptr(),
            desk.len(),
            store.as_mut_ptr(),
            store.len(),
            ran.as_mut_ptr(),
            ran.len(),
            item,
        )
    })
}

pub fn perform(size: crate::command::Size, rows: &mut Rows, lent: Lent, command: &Command) -> Told {
    let size = &Size { desks: size.desks, items: size.items, room: size.room };
    let (desks, desks_len) = (rows.desks.as_mut_ptr(), rows.desks.len());
    let store = &mut rows.store[..lent.store];
    let (store, store_len) = (store.as_mut_ptr(), store.len());
    let ran = &mut rows.ran[..lent.ran];
    let (ran, ran_len) = (ran.as_mut_ptr(), ran.len());
    // The three rows are vectors of their own, and lines and askings lie flat in memory.
    told(unsafe {
        match *command {
            Command::Write { desk, item, value } => {
                rupdaem_write(size, desks, desks_len, store, store_len, ran, ran_len, desk, item, value)
            }
            Command::Script { desk, item, ref lines } => rupdaem_script(
                size,
                desks,
                desks_len,
                store,
                store_len,
                ran,
                ran_len,
                desk,
                item,
                lines.as_ptr(),
                4 * lines.len(),
            ),
            Command::Build { desk, item } => {
                rupdaem_build(size, desks, desks_len, store, store_len, ran, ran_len, desk, item)
            }
            Command::Remove { entry } => rupdaem_remove(size, desks, desks_len, store, store_len, ran, ran_len, entry),
            Command::Import { ref lines, ref askings, result } => rupdaem_import(
                size,
                desks,
                desks_len,
                store,
                store_len,
                ran,
                ran_len,
                lines.as_ptr(),
                4 * lines.len(),
                askings.as_ptr(),
                2 * askings.len(),
                result,
            ),
        }
    })
}
