//! The boundary: the declarations of include/tegmeadow.h and a safe function
//! over each. No other file of this crate has unsafe code.
//!
//! Why the calls are sound: the library is proved, for every input, to stay
//! within the memory that it is lent, to end, and to keep nothing of it. What
//! is left to the functions here is to hand a slice over as its own pointer
//! and length, and an array as a pointer to as many numbers. An empty slice's
//! pointer may dangle; the library follows no pointer of length 0.

/// The five numbers of a listing entry.
pub type EntryNumbers = [u32; 5];
/// The eight numbers of a cell.
pub type CellNumbers = [u64; 8];

extern "C" {
    fn tegmeadow_check(
        log: *const u8,
        log_len: usize,
        place: *mut usize,
        events: *mut usize,
        changes: *mut usize,
    ) -> u32;
    fn tegmeadow_list(
        log: *const u8,
        log_len: usize,
        out: *mut u32,
        out_len: usize,
        place: *mut usize,
        events: *mut usize,
        changes: *mut usize,
    ) -> u32;
    fn tegmeadow_change(
        log: *const u8,
        log_len: usize,
        k: usize,
        place: *mut usize,
        entry: *mut [u32; 5],
        table: *mut u64,
        columns: *mut usize,
    ) -> u32;
    fn tegmeadow_database_name(
        log: *const u8,
        log_len: usize,
        k: usize,
        place: *mut usize,
        length: *mut usize,
    );
    fn tegmeadow_table_name(
        log: *const u8,
        log_len: usize,
        k: usize,
        place: *mut usize,
        length: *mut usize,
    );
    fn tegmeadow_value(
        log: *const u8,
        log_len: usize,
        k: usize,
        side: usize,
        column: usize,
        place: *mut usize,
        cell: *mut [u64; 8],
    ) -> u32;
    fn tegmeadow_text(
        log: *const u8,
        log_len: usize,
        k: usize,
        side: usize,
        column: usize,
        place: *mut usize,
        length: *mut usize,
    );
    fn tegmeadow_change_at(
        log: *const u8,
        log_len: usize,
        entry: *const [u32; 5],
        table: *mut u64,
        columns: *mut usize,
    ) -> u32;
    fn tegmeadow_database_name_at(
        log: *const u8,
        log_len: usize,
        entry: *const [u32; 5],
        place: *mut usize,
        length: *mut usize,
    );
    fn tegmeadow_table_name_at(
        log: *const u8,
        log_len: usize,
        entry: *const [u32; 5],
        place: *mut usize,
        length: *mut usize,
    );
    fn tegmeadow_value_at(
        log: *const u8,
        log_len: usize,
        entry: *const [u32; 5],
        side: usize,
        column: usize,
        cell: *mut [u64; 8],
    ) -> u32;
    fn tegmeadow_text_at(
        log: *const u8,
        log_len: usize,
        entry: *const [u32; 5],
        side: usize,
        column: usize,
        place: *mut usize,
        length: *mut usize,
    );
    fn tegmeadow_values(
        log: *const u8,
        log_len: usize,
        listing: *const u32,
        listing_len: usize,
        cells: *mut u64,
        cells_len: usize,
    ) -> usize;
}

/// What check and list answer.
#[derive(Clone, Copy, Default)]
pub struct Walked {
    pub answer: u32,
    pub place: usize,
    pub events: usize,
    pub changes: usize,
}

/// What a change is, beside its entry.
#[derive(Clone, Copy, Default)]
pub struct Table {
    pub id: u64,
    pub columns: usize,
}

/// A question's answer: the refusal's number or 0, and its place.
#[derive(Clone, Copy, Default)]
pub struct Answer {
    pub number: u32,
    pub place: usize,
}

/// Place and length of a part of the log.
pub type Part = (usize, usize);

pub fn check(log: &[u8]) -> Walked {
    let mut w = Walked::default();
    // SAFETY: the log's own pointer and length; three numbers of this frame.
    w.answer = unsafe {
        tegmeadow_check(
            log.as_ptr(),
            log.len(),
            &mut w.place,
            &mut w.events,
            &mut w.changes,
        )
    };
    w
}

pub fn list(log: &[u8], out: &mut [u32]) -> Walked {
    let mut w = Walked::default();
    // SAFETY: as in `check`; `out` is borrowed for writing, so it is apart from the log.
    w.answer = unsafe {
        tegmeadow_list(
            log.as_ptr(),
            log.len(),
            out.as_mut_ptr(),
            out.len(),
            &mut w.place,
            &mut w.events,
            &mut w.changes,
        )
    };
    w
}

pub fn change(log: &[u8], k: usize) -> (Answer, EntryNumbers, Table) {
    let (mut a, mut entry, mut t) = (Answer::default(), EntryNumbers::default(), Table::default());
    // SAFETY: the log's own pointer and length; numbers of this frame.
    a.number = unsafe {
        tegmeadow_change(
            log.as_ptr(),
            log.len(),
            k,
            &mut a.place,
            &mut entry,
            &mut t.id,
            &mut t.columns,
        )
    };
    (a, entry, t)
}

pub fn database_name(log: &[u8], k: usize) -> Part {
    let (mut place, mut length) = (0, 0);
    // SAFETY: as in `change`.
    unsafe { tegmeadow_database_name(log.as_ptr(), log.len(), k, &mut place, &mut length) };
    (place, length)
}

pub fn table_name(log: &[u8], k: usize) -> Part {
    let (mut place, mut length) = (0, 0);
    // SAFETY: as in `change`.
    unsafe { tegmeadow_table_name(log.as_ptr(), log.len(), k, &mut place, &mut length) };
    (place, length)
}

pub fn value(log: &[u8], k: usize, side: usize, column: usize) -> (Answer, CellNumbers) {
    let (mut a, mut cell) = (Answer::default(), CellNumbers::default());
    // SAFETY: as in `change`.
    a.number = unsafe {
        tegmeadow_value(
            log.as_ptr(),
            log.len(),
            k,
            side,
            column,
            &mut a.place,
            &mut cell,
        )
    };
    (a, cell)
}

pub fn text(log: &[u8], k: usize, side: usize, column: usize) -> Part {
    let (mut place, mut length) = (0, 0);
    // SAFETY: as in `change`.
    unsafe {
        tegmeadow_text(
            log.as_ptr(),
            log.len(),
            k,
            side,
            column,
            &mut place,
            &mut length,
        )
    };
    (place, length)
}

pub fn change_at(log: &[u8], entry: &EntryNumbers) -> Option<Table> {
    let mut t = Table::default();
    // SAFETY: as in `change`; the entry is an array of five.
    let answer =
        unsafe { tegmeadow_change_at(log.as_ptr(), log.len(), entry, &mut t.id, &mut t.columns) };
    (answer == 0).then_some(t)
}

pub fn database_name_at(log: &[u8], entry: &EntryNumbers) -> Part {
    let (mut place, mut length) = (0, 0);
    // SAFETY: as in `change_at`.
    unsafe { tegmeadow_database_name_at(log.as_ptr(), log.len(), entry, &mut place, &mut length) };
    (place, length)
}

pub fn table_name_at(log: &[u8], entry: &EntryNumbers) -> Part {
    let (mut place, mut length) = (0, 0);
    // SAFETY: as in `change_at`.
    unsafe { tegmeadow_table_name_at(log.as_ptr(), log.len(), entry, &mut place, &mut length) };
    (place, length)
}

/// The cell into `cell`, which stays as it was where the answer is false.
pub fn value_at(
    log: &[u8],
    entry: &EntryNumbers,
    side: usize,
    column: usize,
    cell: &mut CellNumbers,
) -> bool {
    // SAFETY: as in `change_at`; the cell is an array of eight.
    0 == unsafe { tegmeadow_value_at(log.as_ptr(), log.len(), entry, side, column, cell) }
}

pub fn text_at(log: &[u8], entry: &EntryNumbers, side: usize, column: usize) -> Part {
    let (mut place, mut length) = (0, 0);
    // SAFETY: as in `change_at`.
    unsafe {
        tegmeadow_text_at(
            log.as_ptr(),
            log.len(),
            entry,
            side,
            column,
            &mut place,
            &mut length,
        )
    };
    (place, length)
}

/// The cells of the changes of a part of a listing, one after another; how many were written.
pub fn values(log: &[u8], listing: &[u32], cells: &mut [CellNumbers]) -> usize {
    let cells = cells.as_flattened_mut();
    // SAFETY: three slices, each by its own pointer and length; `cells` is borrowed
    // for writing, so it is apart from the others.
    unsafe {
        tegmeadow_values(
            log.as_ptr(),
            log.len(),
            listing.as_ptr(),
            listing.len(),
            cells.as_mut_ptr(),
            cells.len(),
        )
    }
}
