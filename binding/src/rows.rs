//! Tables of rows: a caller's, kept from call to call, and grown where a message needs more.

/// A cell of a table: 64 bits, two's complement.
pub(crate) type Cell = i64;

/// The cell of a count that is null, unset, or absent in the version.
pub(crate) const NO_COUNT: Cell = -1;

/// Kinds in front of what may be absent.
pub(crate) const NULL: Cell = 1;
pub(crate) const PRESENT: Cell = 2;

/// One table, with rows of `WIDTH` cells.
#[derive(Clone, Debug, Default)]
pub(crate) struct Table<const WIDTH: usize> {
    cells: Vec<Cell>,
}

impl<const WIDTH: usize> Table<WIDTH> {
    pub(crate) fn rows(&self) -> usize {
        self.cells.len() / WIDTH
    }

    /// Its cells, with as many as there are.
    pub(crate) fn lent(&mut self) -> (*mut Cell, usize) {
        (self.cells.as_mut_ptr(), self.cells.len())
    }

    pub(crate) fn grow(&mut self, rows: usize) {
        self.cells.resize(rows * WIDTH, 0);
    }

    pub(crate) fn filled(&self, from: usize, count: usize) -> Rows<'_, WIDTH> {
        Rows { cells: &self.cells[from * WIDTH..(from + count) * WIDTH] }
    }
}

/// Some rows of a table that a call filled.
#[derive(Clone, Copy, Debug)]
pub(crate) struct Rows<'a, const WIDTH: usize> {
    cells: &'a [Cell],
}

impl<'a, const WIDTH: usize> Rows<'a, WIDTH> {
    pub(crate) fn len(&self) -> usize {
        self.cells.len() / WIDTH
    }

    /// All of their cells, row behind row.
    pub(crate) fn cells(&self) -> &'a [Cell] {
        self.cells
    }

    pub(crate) fn get(&self, i: usize) -> Option<&'a [Cell; WIDTH]> {
        self.cells.get(i * WIDTH..(i + 1) * WIDTH)?.try_into().ok()
    }

    pub(crate) fn part(&self, from: usize, count: usize) -> Rows<'a, WIDTH> {
        Rows { cells: &self.cells[from * WIDTH..(from + count) * WIDTH] }
    }
}

/// The part of the message that a row shows.
pub(crate) fn part(msg: &[u8], start: Cell, length: Cell) -> &[u8] {
    &msg[start as usize..(start + length) as usize]
}

/// A text that a call showed: it was judged there.
pub(crate) fn text(msg: &[u8], start: Cell, length: Cell) -> &str {
    let bytes = part(msg, start, length);
    debug_assert!(std::str::from_utf8(bytes).is_ok());
    // SAFETY: every text that a call shows is well-formed UTF-8; that is part of its proved promise.
    unsafe { std::str::from_utf8_unchecked(bytes) }
}

/// How many rows a count tells.
pub(crate) fn told(count: Cell) -> usize {
    if count == NO_COUNT {
        0
    } else {
        count as usize
    }
}
