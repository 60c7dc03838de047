//! Every change of a log with its values, in one pass.
//!
//! The library hands over many cells at a call. They stand in a block that the
//! changes read from it share, so that no row costs an allocation: the block
//! is used again once no change that was given out still holds it.

use crate::cell::{part, Cell};
use crate::ffi::{self, CellNumbers, Table};
use crate::log::{Counts, Entry};
use std::borrow::Cow;
use std::rc::Rc;

/// Cells that are read at a time: a few, so that they stay near.
const BLOCK: usize = 128;

/// Changes that are read at a time however many cells they have: the library
/// looks at a table map once a call.
const TOGETHER: usize = 16;

/// What a change does to its row.
#[derive(Clone, Copy, Debug, PartialEq, Eq, Hash)]
pub enum Kind {
    Write,
    Update,
    Delete,
}

/// Changes of a log, in log order.
pub struct Changes<'a> {
    log: &'a [u8],
    counts: Counts,
    /// The listing numbers of the changes.
    numbers: Cow<'a, [u32]>,
    /// The numbers of the changes given out.
    next: usize,
    /// The cells of changes of one table, and the place of its map.
    block: Rc<[CellNumbers]>,
    table: Table,
    map: u32,
    /// The first cell that was not given out, the changes that were not, and
    /// the cells of each.
    given: usize,
    left: usize,
    size: usize,
}

impl<'a> Changes<'a> {
    pub(crate) fn new(log: &'a [u8], counts: Counts, numbers: Cow<'a, [u32]>) -> Changes<'a> {
        Changes {
            log,
            counts,
            numbers,
            next: 0,
            block: Rc::new([]),
            table: Table::default(),
            map: 0,
            given: 0,
            left: 0,
            size: 0,
        }
    }

    /// How many events and changes the whole log has.
    pub fn counts(&self) -> Counts {
        self.counts
    }

    /// Reads the cells of the next changes of one table, as many as fit into a block.
    #[cold]
    fn fill(&mut self) -> Option<()> {
        let entry = self.numbers.get(self.next..)?.first_chunk::<5>()?;
        if self.map != entry[2] || self.map == 0 {
            self.table = ffi::change_at(self.log, entry)?;
            self.map = entry[2];
        }
        let cells = images(entry) * self.table.columns;
        self.size = cells;
        let most = TOGETHER.max(BLOCK / cells.max(1));
        let rest = self.numbers.get(self.next..).unwrap_or_default();
        let is_alike = |other: &&[u32]| other[0] == entry[0] && other[2] == entry[2];
        let alike = rest.chunks_exact(5).take(most).take_while(is_alike).count();
        let block = free_block(&mut self.block, cells * alike);
        let written = ffi::values(self.log, rest.get(..5 * alike)?, block);
        self.given = 0;
        self.left = written.checked_div(cells)?;
        (self.left > 0).then_some(())
    }
}

/// A block of at least so many cells to write into: this one, or a new one
/// where it is too short or a change holds it.
fn free_block(block: &mut Rc<[CellNumbers]>, cells: usize) -> &mut [CellNumbers] {
    if block.len() < cells || Rc::get_mut(block).is_none() {
        *block = Rc::from(vec![CellNumbers::default(); cells.max(BLOCK)]);
    }
    Rc::get_mut(block).unwrap_or_default()
}

/// How many images a change has, by its type: an update has two.
fn images(entry: &[u32; 5]) -> usize {
    1 + usize::from(entry[0] == 31)
}

impl<'a> Iterator for Changes<'a> {
    type Item = Change<'a>;

    #[inline]
    fn next(&mut self) -> Option<Change<'a>> {
        let entry = *self.numbers.get(self.next..)?.first_chunk::<5>()?;
        if self.left == 0 {
            self.fill()?;
        }
        self.left -= 1;
        self.next += 5;
        let start = self.given;
        self.given += self.size;
        Some(Change {
            log: self.log,
            entry: Entry(entry),
            table: self.table,
            block: self.block.clone(),
            start,
        })
    }

    fn size_hint(&self) -> (usize, Option<usize>) {
        let left = (self.numbers.len().saturating_sub(self.next)) / 5;
        (left, Some(left))
    }
}

impl ExactSizeIterator for Changes<'_> {}
impl std::iter::FusedIterator for Changes<'_> {}

/// A row change.
#[derive(Clone)]
pub struct Change<'a> {
    log: &'a [u8],
    entry: Entry,
    table: Table,
    block: Rc<[CellNumbers]>,
    /// Its first cell in the block.
    start: usize,
}

impl<'a> Change<'a> {
    /// Its five numbers in the listing.
    pub fn entry(&self) -> Entry {
        self.entry
    }

    /// What it does to its row.
    pub fn kind(&self) -> Kind {
        match self.entry.event_type() {
            30 => Kind::Write,
            31 => Kind::Update,
            _ => Kind::Delete,
        }
    }

    /// The id that its table has in the log.
    pub fn table_id(&self) -> u64 {
        self.table.id
    }

    /// How many columns its table has.
    pub fn columns(&self) -> usize {
        self.table.columns
    }

    /// Its database's name. It is looked up each time, and is the same for all
    /// changes of one table map ([`Entry::map`]).
    pub fn database(&self) -> &'a [u8] {
        part(self.log, ffi::database_name_at(self.log, &self.entry.0))
    }

    /// Its table's name, looked up as [`Change::database`] is.
    pub fn table(&self) -> &'a [u8] {
        part(self.log, ffi::table_name_at(self.log, &self.entry.0))
    }

    /// The row as it was: of an update or a delete.
    #[inline]
    pub fn before(&self) -> Option<Image<'_, 'a>> {
        if self.kind() == Kind::Write {
            return None;
        }
        self.image(self.start)
    }

    /// The row as it is then: of a write or an update.
    #[inline]
    pub fn after(&self) -> Option<Image<'_, 'a>> {
        match self.kind() {
            Kind::Write => self.image(self.start),
            Kind::Update => self.image(self.start + self.table.columns),
            Kind::Delete => None,
        }
    }

    #[inline]
    fn image(&self, start: usize) -> Option<Image<'_, 'a>> {
        let cells = self.block.get(start..start + self.table.columns)?;
        Some(Image {
            log: self.log,
            cells,
        })
    }
}

/// A row as an image holds it: a cell for each column of the table.
#[derive(Clone, Copy)]
pub struct Image<'c, 'a> {
    log: &'a [u8],
    cells: &'c [CellNumbers],
}

impl<'c, 'a> Image<'c, 'a> {
    /// How many columns the table has.
    pub fn len(&self) -> usize {
        self.cells.len()
    }

    /// A table has at least one column.
    pub fn is_empty(&self) -> bool {
        self.cells.is_empty()
    }

    /// The cell of a column, counted from 0.
    #[inline]
    pub fn cell(&self, column: usize) -> Option<Cell<'a>> {
        self.cells
            .get(column)
            .map(|numbers| Cell::of(self.log, numbers))
    }

    /// The cells, from column 0.
    #[inline]
    pub fn cells(&self) -> Cells<'c, 'a> {
        Cells {
            log: self.log,
            cells: self.cells.iter(),
        }
    }
}

impl<'c, 'a> IntoIterator for Image<'c, 'a> {
    type Item = Cell<'a>;
    type IntoIter = Cells<'c, 'a>;

    #[inline]
    fn into_iter(self) -> Cells<'c, 'a> {
        self.cells()
    }
}

/// The cells of an image, from column 0.
#[derive(Clone)]
pub struct Cells<'c, 'a> {
    log: &'a [u8],
    cells: std::slice::Iter<'c, CellNumbers>,
}

impl<'a> Iterator for Cells<'_, 'a> {
    type Item = Cell<'a>;

    #[inline(always)]
    fn next(&mut self) -> Option<Cell<'a>> {
        self.cells.next().map(|numbers| Cell::of(self.log, numbers))
    }

    #[inline]
    fn size_hint(&self) -> (usize, Option<usize>) {
        self.cells.size_hint()
    }

    #[inline(always)]
    fn fold<B, F: FnMut(B, Cell<'a>) -> B>(self, first: B, mut f: F) -> B {
        let log = self.log;
        self.cells
            .fold(first, |so_far, numbers| f(so_far, Cell::of(log, numbers)))
    }
}

impl ExactSizeIterator for Cells<'_, '_> {}
