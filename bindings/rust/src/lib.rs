//! Safe calls of daybook: a day's mesh of triangles or tetrahedra in a book of lent words, who touches whom in it, and the rim of
//! a sheet; a plain engine that answers from the cells alone, to hold the others to; and what can be saved of a day file that was
//! cut short or damaged.
//!
//! A book is a slice of `u32` that you lend to each call but `salvage`; `include/daybook.h` says what stands in it. Nothing is
//! allocated and nothing is kept. A refusal alters nothing that was lent. `make`, `ask` and `ask_list` need up to
//! 512 KiB of stack, `salvage` and `sheet` up to 256 KiB, `load` and `whole_box` up to 128 KiB, `drop_relation`, `write`,
//! `euler`, `closures`, `box_of` and `plain` up to 64 KiB.
//!
//! Edges, faces and cells are numbered in the order in which the file has the cells. Two files with the same cells in another order
//! have the same entities with other numbers: compare two files by vertices, not by these numbers.
//!
//! ```no_run
//! # let file: Vec<u8> = Vec::new();
//! let mut book = vec![0; daybook::words_for_sheet(2, 1900, 3700) as usize];
//! daybook::load(&file, &mut book)?;
//! daybook::ask(&mut book, 2, 1)?;
//! let edges: &[u32] = daybook::row(&book, 2, 1, 0)?;
//! # Ok::<(), daybook::Refusal>(())
//! ```

use std::fmt;

mod c {
    extern "C" {
        pub fn daybook_load(file: *const u8, file_len: usize, book: *mut u32, book_len: usize, cell: *mut u32) -> u32;
        pub fn daybook_make(book: *mut u32, book_len: usize, d: u32, e: u32, key: *mut u32, position: *mut usize) -> u32;
        pub fn daybook_ask(book: *mut u32, book_len: usize, d: u32, e: u32, key: *mut u32, position: *mut usize) -> u32;
        pub fn daybook_ask_list(book: *mut u32, book_len: usize, pairs: *const u32, pairs_len: usize, answers: *mut u32, answers_len: usize) -> u32;
        pub fn daybook_drop(book: *mut u32, book_len: usize, d: u32, e: u32, key: *mut u32, position: *mut usize) -> u32;
        pub fn daybook_row(
            book: *const u32,
            book_len: usize,
            d: u32,
            e: u32,
            i: u32,
            start: *mut usize,
            count: *mut usize,
            key: *mut u32,
            position: *mut usize,
        ) -> u32;
        pub fn daybook_find(
            book: *const u32,
            book_len: usize,
            d: u32,
            e: u32,
            i: u32,
            j: u32,
            yes: *mut u32,
            read: *mut usize,
            key: *mut u32,
            position: *mut usize,
        ) -> u32;
        pub fn daybook_plain(
            book: *const u32,
            book_len: usize,
            d: u32,
            e: u32,
            i: u32,
            j: u32,
            yes: *mut u32,
            key: *mut u32,
            position: *mut usize,
        ) -> u32;
        pub fn daybook_write(
            book: *const u32,
            book_len: usize,
            bytes: *mut u8,
            bytes_len: usize,
            length: *mut usize,
            key: *mut u32,
            position: *mut usize,
        ) -> u32;
        pub fn daybook_euler(book: *const u32, book_len: usize, number: *mut i64, key: *mut u32, position: *mut usize) -> u32;
        pub fn daybook_held_count(book: *const u32, book_len: usize, count: *mut u32) -> u32;
        pub fn daybook_closures(
            book: *const u32,
            book_len: usize,
            counts: *const i32,
            counts_len: usize,
            closures: *mut i32,
            closures_len: usize,
            steps: *mut f64,
            steps_len: usize,
            masked: *mut u8,
            masked_len: usize,
            key: *mut u32,
            position: *mut usize,
        ) -> u32;
        pub fn daybook_box(
            book: *const u32,
            book_len: usize,
            coordinates: *const f64,
            coordinates_len: usize,
            axes: u32,
            d: u32,
            i: u32,
            ends: *mut f64,
            key: *mut u32,
            position: *mut usize,
        ) -> u32;
        pub fn daybook_whole_box(
            book: *const u32,
            book_len: usize,
            coordinates: *const f64,
            coordinates_len: usize,
            axes: u32,
            ends: *mut f64,
            some: *mut u32,
            key: *mut u32,
            position: *mut usize,
        ) -> u32;
        pub fn daybook_sheet(
            book: *const u32,
            book_len: usize,
            across: *mut u32,
            across_len: usize,
            rim: *mut u8,
            rim_len: usize,
            rim_vertices: *mut u32,
            rim_vertices_len: usize,
            rim_edges: *mut u32,
            rim_edges_len: usize,
            rim_length: *mut usize,
            vertex_count: *mut usize,
            edge_count: *mut usize,
            why: *mut u32,
            which: *mut u32,
            key: *mut u32,
            position: *mut usize,
        ) -> u32;
        pub fn daybook_salvage(
            file: *const u8,
            file_len: usize,
            out: *mut u8,
            out_len: usize,
            dropped: *mut u32,
            dropped_len: usize,
            length: *mut usize,
            count: *mut usize,
            spare: *mut u32,
            pad: *mut u32,
            wrong_length: *mut u32,
        ) -> u32;
    }
}

/// The key of the free words, those from the used length on.
pub const FREE_WORDS: u32 = 16;

/// A word of a book, as `Refusal::RowsBroken` names it.
#[derive(Clone, Copy, Debug, PartialEq, Eq, Hash)]
pub enum Position {
    /// This offset of the relation, 0 to N_d.
    Offset(usize),
    /// This index of the relation, counted from 0 through all its rows.
    Index(usize),
    /// This word behind the used length, counted from 0 there.
    FreeWord(usize),
}

impl Position {
    /// What the library's number means in this book: of a relation d→e it counts N_d + 1 offsets, and then the indices.
    fn of(book: &[u32], key: u32, number: usize) -> Position {
        let (head, d) = (book[0], key / 4);
        let last_offset = match d {
            _ if key == FREE_WORDS => return Position::FreeWord(number),
            0 => head >> 16 & 0x3FFF,
            _ if d == head >> 30 => head >> 3 & 0x1FFF,
            _ => book[1 + d as usize],
        } as usize;
        match number.checked_sub(last_offset + 1) {
            None => Position::Offset(number),
            Some(index) => Position::Index(index),
        }
    }
}

impl fmt::Display for Position {
    fn fmt(&self, out: &mut fmt::Formatter<'_>) -> fmt::Result {
        match self {
            Position::Offset(at) => write!(out, "offset {at}"),
            Position::Index(at) => write!(out, "index {at}"),
            Position::FreeWord(at) => write!(out, "free word {at}"),
        }
    }
}

/// Why a book is no sheet, and the lowest that makes it none.
#[derive(Clone, Copy, Debug, PartialEq, Eq, Hash)]
pub enum NotSheet {
    /// 1: D is not 2.
    Dimension,
    /// 2: this vertex lies in no cell.
    Vertex(u32),
    /// 3: this edge lies in no cell, or in three or more.
    Edge(u32),
    /// 4: this cell has not three edges that list it; in a book that these calls alone have written it cannot occur.
    Cell(u32),
}

impl NotSheet {
    /// What the library's two numbers mean.
    fn of(why: u32, which: u32) -> NotSheet {
        match why {
            1 => NotSheet::Dimension,
            2 => NotSheet::Vertex(which),
            3 => NotSheet::Edge(which),
            4 => NotSheet::Cell(which),
            _ => unreachable!("the library gives 1 to 4"),
        }
    }

    /// The paper's number of this reason, 1 to 4.
    pub fn number(self) -> u32 {
        match self {
            NotSheet::Dimension => 1,
            NotSheet::Vertex(_) => 2,
            NotSheet::Edge(_) => 3,
            NotSheet::Cell(_) => 4,
        }
    }
}

impl fmt::Display for NotSheet {
    fn fmt(&self, out: &mut fmt::Formatter<'_>) -> fmt::Result {
        match self {
            NotSheet::Dimension => write!(out, "D is not 2"),
            NotSheet::Vertex(vertex) => write!(out, "vertex {vertex} lies in no cell"),
            NotSheet::Edge(edge) => write!(out, "edge {edge} does not lie in one cell or two"),
            NotSheet::Cell(cell) => write!(out, "cell {cell} has not three edges that list it"),
        }
    }
}

/// Why a call was refused; `number` gives the paper's number.
#[derive(Clone, Copy, Debug, PartialEq, Eq, Hash)]
pub enum Refusal {
    /// 1: the file has fewer than 4 bytes.
    FileTooShort,
    /// 2: D is 0.
    NoDimension,
    /// 3: N_0 is over 8,192.
    ManyVertices,
    /// 4: N_D is over 4,096.
    ManyCells,
    /// 5: a spare bit of the file's head is set.
    SpareBits,
    /// 6: the file's length is not the one that its head gives.
    FileLength,
    /// 7: a cell names a vertex that is N_0 or more; the lowest such cell.
    VertexOut(u32),
    /// 8: a cell names a vertex twice; the lowest such cell.
    VertexTwice(u32),
    /// 9: a bit after the last vertex is set.
    BitsAfter,
    /// 10: the book's head words or the sizes of its relations break the frame rule.
    FrameBroken,
    /// 11: the book's offsets, indices or free words break the row rule, or two rows of D→0 are equal. The first broken relation
    /// has the key 4d+e, and `position` is the lowest in it; for `row` and `find` it is one of the row's own two offsets. Where
    /// only a free word is wrong, the key is `FREE_WORDS`.
    RowsBroken { key: u32, position: Position },
    /// 11 among the answers of `ask_list`, which do not say where; `ask` does.
    RowsBrokenSomewhere,
    /// 12: d or e is over D; for `closures`, D is 1.
    DimensionOver,
    /// 13: the used length afterwards would pass the book's length.
    NoRoom,
    /// 14: the relation is held already.
    AlreadyHeld,
    /// 15: something that is needed is not held.
    NeedMissing,
    /// 16: the relation is not held.
    NotHeld,
    /// 17: i is N_d or more; for `plain`, by its own count.
    NoSuchEntity,
    /// 18: the byte buffer is shorter than the file to be written.
    BufferTooShort,
    /// 19: j is N_e or more; for `plain`, by its own count.
    NoSuchIndex,
    /// 20: more than `MOST_PAIRS` pairs, or answers that have not one place a pair.
    PairsOff,
    /// 21: a lent list has not one place a vertex, edge or face, coordinates are not axes times N_0, the list of cells dropped is
    /// shorter than 2·N_D, the cells across are not 3·N_D, or a rim's map is shorter than the rim needs.
    ListLength,
    /// 22: a count is neither from −32,768 to 32,767 nor `MASKED`.
    CountOutside,
    /// 23: a cell repeats an earlier one; the lowest such cell.
    CellTwice(u32),
    /// 24: D→0 is not dropped.
    CellsKept,
    /// 25: d→0 has to be made, another relation keeps N_d, and another number of entities is found; in a book that these calls
    /// alone have written it cannot occur.
    NumberDiffers,
    /// 26: the number of axes is neither 2 nor 3.
    AxisCount,
    /// 27: a coordinate is infinite or not a number.
    NotFinite,
    /// 28: the book is no sheet, and why.
    NotSheet(NotSheet),
    /// 29: the rim has over 4,096 edges.
    LongRim,
}

impl Refusal {
    /// The paper's number of this refusal, 1 to 29.
    pub fn number(self) -> u32 {
        match self {
            Refusal::FileTooShort => 1,
            Refusal::NoDimension => 2,
            Refusal::ManyVertices => 3,
            Refusal::ManyCells => 4,
            Refusal::SpareBits => 5,
            Refusal::FileLength => 6,
            Refusal::VertexOut(_) => 7,
            Refusal::VertexTwice(_) => 8,
            Refusal::BitsAfter => 9,
            Refusal::FrameBroken => 10,
            Refusal::RowsBroken { .. } | Refusal::RowsBrokenSomewhere => 11,
            Refusal::DimensionOver => 12,
            Refusal::NoRoom => 13,
            Refusal::AlreadyHeld => 14,
            Refusal::NeedMissing => 15,
            Refusal::NotHeld => 16,
            Refusal::NoSuchEntity => 17,
            Refusal::BufferTooShort => 18,
            Refusal::NoSuchIndex => 19,
            Refusal::PairsOff => 20,
            Refusal::ListLength => 21,
            Refusal::CountOutside => 22,
            Refusal::CellTwice(_) => 23,
            Refusal::CellsKept => 24,
            Refusal::NumberDiffers => 25,
            Refusal::AxisCount => 26,
            Refusal::NotFinite => 27,
            Refusal::NotSheet(_) => 28,
            Refusal::LongRim => 29,
        }
    }
}

impl fmt::Display for Refusal {
    fn fmt(&self, out: &mut fmt::Formatter<'_>) -> fmt::Result {
        match self {
            Refusal::VertexOut(cell) | Refusal::VertexTwice(cell) | Refusal::CellTwice(cell) => write!(out, "refused {}, cell {}", self.number(), cell),
            Refusal::RowsBroken { key: FREE_WORDS, position } => write!(out, "refused 11, {position}"),
            Refusal::RowsBroken { key, position } => write!(out, "refused 11, relation {}→{}, {position}", key / 4, key % 4),
            Refusal::NotSheet(why) => write!(out, "refused 28, {why}"),
            _ => write!(out, "refused {}", self.number()),
        }
    }
}

impl std::error::Error for Refusal {}

/// What a call's number means: accepted with `value`, or a refusal, with 7, 8 and 23 of `cell`, with 11 of no known place. 28 is
/// given by `sheet` alone, which knows why.
fn answer<T>(number: u32, cell: u32, value: T) -> Result<T, Refusal> {
    Err(match number {
        0 => return Ok(value),
        1 => Refusal::FileTooShort,
        2 => Refusal::NoDimension,
        3 => Refusal::ManyVertices,
        4 => Refusal::ManyCells,
        5 => Refusal::SpareBits,
        6 => Refusal::FileLength,
        7 => Refusal::VertexOut(cell),
        8 => Refusal::VertexTwice(cell),
        9 => Refusal::BitsAfter,
        10 => Refusal::FrameBroken,
        11 => Refusal::RowsBrokenSomewhere,
        12 => Refusal::DimensionOver,
        13 => Refusal::NoRoom,
        14 => Refusal::AlreadyHeld,
        15 => Refusal::NeedMissing,
        16 => Refusal::NotHeld,
        17 => Refusal::NoSuchEntity,
        18 => Refusal::BufferTooShort,
        19 => Refusal::NoSuchIndex,
        20 => Refusal::PairsOff,
        21 => Refusal::ListLength,
        22 => Refusal::CountOutside,
        23 => Refusal::CellTwice(cell),
        24 => Refusal::CellsKept,
        25 => Refusal::NumberDiffers,
        26 => Refusal::AxisCount,
        27 => Refusal::NotFinite,
        29 => Refusal::LongRim,
        _ => unreachable!("the library gives 0 to 29"),
    })
}

/// The places for a key and a position, which a call writes with 11.
#[derive(Default)]
struct Place {
    key: u32,
    position: usize,
}

impl Place {
    /// What the number of a call on this book means, with 11 of this place.
    fn answer<T>(self, book: &[u32], number: u32, value: T) -> Result<T, Refusal> {
        match number {
            11 => Err(Refusal::RowsBroken { key: self.key, position: Position::of(book, self.key, self.position) }),
            _ => answer(number, 0, value),
        }
    }
}

/// Loads a day file: every word of the book is set, and D→0 alone is held.
pub fn load(file: &[u8], book: &mut [u32]) -> Result<(), Refusal> {
    let mut cell = 0;
    // SAFETY: each pointer and length is a slice's or a local's, and a lent book overlaps nothing else.
    let number = unsafe { c::daybook_load(file.as_ptr(), file.len(), book.as_mut_ptr(), book.len(), &mut cell) };
    answer(number, cell, ())
}

/// Makes d→e from what the book stores; everything that it is made from has to be held.
pub fn make(book: &mut [u32], d: u32, e: u32) -> Result<(), Refusal> {
    let mut place = Place::default();
    // SAFETY: as in `load`.
    let number = unsafe { c::daybook_make(book.as_mut_ptr(), book.len(), d, e, &mut place.key, &mut place.position) };
    place.answer(book, number, ())
}

/// Makes d→e and, as far as missing, everything that it is made from, or nothing at all.
pub fn ask(book: &mut [u32], d: u32, e: u32) -> Result<(), Refusal> {
    let mut place = Place::default();
    // SAFETY: as in `load`.
    let number = unsafe { c::daybook_ask(book.as_mut_ptr(), book.len(), d, e, &mut place.key, &mut place.position) };
    place.answer(book, number, ())
}

/// The most pairs that `ask_list` takes.
pub const MOST_PAIRS: usize = 16;

/// Asks for each pair (d, e) in turn, as `ask` does, and writes what came of it in its place among the answers; a refused ask
/// does not stop the next, and the list is accepted all the same. The book is checked once, so a list takes less time than its
/// asks one by one. Where the list itself is refused, with `PairsOff`, neither the book nor the answers are altered. The answers
/// do not say where a book is broken: their 11 is `RowsBrokenSomewhere`.
///
/// ```no_run
/// # let mut book = vec![0; 500];
/// let mut answers = [Ok(()); 3];
/// daybook::ask_list(&mut book, &[(2, 1), (1, 2), (2, 2)], &mut answers)?;
/// assert_eq!(answers, [Ok(()); 3]);
/// # Ok::<(), daybook::Refusal>(())
/// ```
pub fn ask_list(book: &mut [u32], pairs: &[(u32, u32)], answers: &mut [Result<(), Refusal>]) -> Result<(), Refusal> {
    // One pair or answer more than is allowed stands for any number more: the library refuses it.
    let (mut flat, mut numbers) = ([0; 2 * (MOST_PAIRS + 1)], [0; MOST_PAIRS + 1]);
    for (place, &(d, e)) in flat.chunks_exact_mut(2).zip(pairs) {
        place.copy_from_slice(&[d, e]);
    }
    let (asked, places) = (2 * pairs.len().min(MOST_PAIRS + 1), answers.len().min(MOST_PAIRS + 1));
    // SAFETY: as in `load`; both lengths are at most the arrays'.
    let number = unsafe { c::daybook_ask_list(book.as_mut_ptr(), book.len(), flat.as_ptr(), asked, numbers.as_mut_ptr(), places) };
    answer(number, 0, ())?;
    for (place, &number) in answers.iter_mut().zip(&numbers) {
        *place = answer(number, 0, ());
    }
    Ok(())
}

/// Drops d→e and gives back its room: later relations move down, and the words that are freed are set to 0. Relations that were
/// made from it stay; `make`, `euler`, `closures`, `box_of` and `sheet` refuse with `NeedMissing` where they need it, and `ask`
/// makes it again. In a book that these calls alone have written, a relation that is dropped and made again leaves the same words as before.
///
/// ```no_run
/// # let mut book = vec![0; 500];
/// daybook::ask(&mut book, 2, 1)?;
/// daybook::drop_relation(&mut book, 0, 1)?; // it served to make 2→1
/// daybook::ask(&mut book, 2, 2)?;
/// # Ok::<(), daybook::Refusal>(())
/// ```
pub fn drop_relation(book: &mut [u32], d: u32, e: u32) -> Result<(), Refusal> {
    let mut place = Place::default();
    // SAFETY: as in `load`.
    let number = unsafe { c::daybook_drop(book.as_mut_ptr(), book.len(), d, e, &mut place.key, &mut place.position) };
    place.answer(book, number, ())
}

/// Row i of d→e: the part of the book itself, ascending.
pub fn row(book: &[u32], d: u32, e: u32, i: u32) -> Result<&[u32], Refusal> {
    let (mut start, mut count, mut place) = (0, 0, Place::default());
    // SAFETY: as in `load`.
    let number = unsafe { c::daybook_row(book.as_ptr(), book.len(), d, e, i, &mut start, &mut count, &mut place.key, &mut place.position) };
    place.answer(book, number, ())?;
    Ok(&book[start..start + count])
}

/// What a search in a row found.
#[derive(Clone, Copy, Debug, PartialEq, Eq, Hash)]
pub struct Found {
    /// Whether the index is in the row.
    pub yes: bool,
    /// How many of the row's indices were read: those below it that lead, and the one after them, if there is one.
    pub read: usize,
}

/// Whether j is in row i of d→e: the row is searched from its front, up to the first index that is not below j.
pub fn find(book: &[u32], d: u32, e: u32, i: u32, j: u32) -> Result<Found, Refusal> {
    let (mut yes, mut read, mut place) = (0, 0, Place::default());
    // SAFETY: as in `load`.
    let number = unsafe { c::daybook_find(book.as_ptr(), book.len(), d, e, i, j, &mut yes, &mut read, &mut place.key, &mut place.position) };
    place.answer(book, number, Found { yes: yes == 1, read })
}

/// The plain engine, to hold the others to: whether (e, j) is incident to (d, i), worked out from the cells' vertex sets each time. No
/// relation is used but D→0; d→e need not be held. For d > e it is whether every vertex of (e, j) is one of (d, i), for d < e the
/// reverse, for d = e > 0 whether they have a vertex in common and j is not i, and for d = e = 0 whether they lie in one cell and j
/// is not i.
///
/// Vertices and cells have the book's numbers; edges and faces below D are numbered anew from the cells, as `make` numbers them, and
/// 17 and 19 go by the number that the cells have, not by N_1 and N_2 of the book. In a book that these calls alone have written,
/// drops among them, it says yes exactly where j is in row i of d→e, while that is held; in one that others have written it goes by
/// the cells, and `find` by the row. The whole book is checked at each call, and where d or e lies between 0 and D those entities are
/// numbered; `find` is the quicker one.
///
/// ```no_run
/// # let book = vec![0; 500];
/// let inside = daybook::plain(&book, 2, 1, 0, 4)?; // whether edge 4 is one of cell 0, where D is 2
/// assert_eq!(inside, daybook::find(&book, 2, 1, 0, 4)?.yes);
/// # Ok::<(), daybook::Refusal>(())
/// ```
pub fn plain(book: &[u32], d: u32, e: u32, i: u32, j: u32) -> Result<bool, Refusal> {
    let (mut yes, mut place) = (0, Place::default());
    // SAFETY: as in `load`.
    let number = unsafe { c::daybook_plain(book.as_ptr(), book.len(), d, e, i, j, &mut yes, &mut place.key, &mut place.position) };
    place.answer(book, number, yes == 1)
}

/// Writes the day file of the book's mesh and gives its length; later bytes stay as they were.
pub fn write(book: &[u32], bytes: &mut [u8]) -> Result<usize, Refusal> {
    let (mut length, mut place) = (0, Place::default());
    // SAFETY: as in `load`.
    let number =
        unsafe { c::daybook_write(book.as_ptr(), book.len(), bytes.as_mut_ptr(), bytes.len(), &mut length, &mut place.key, &mut place.position) };
    place.answer(book, number, length)
}

/// The Euler number; d→0 has to be held for every 0 < d < D. In it N_0 is the number of vertices that lie in at least one cell,
/// so that points nobody uses do not count.
pub fn euler(book: &[u32]) -> Result<i64, Refusal> {
    let (mut value, mut place) = (0, Place::default());
    // SAFETY: as in `load`.
    let number = unsafe { c::daybook_euler(book.as_ptr(), book.len(), &mut value, &mut place.key, &mut place.position) };
    place.answer(book, number, value)
}

/// How many relations are held.
pub fn held_count(book: &[u32]) -> Result<u32, Refusal> {
    let mut count = 0;
    // SAFETY: as in `load`.
    let number = unsafe { c::daybook_held_count(book.as_ptr(), book.len(), &mut count) };
    answer(number, 0, count)
}

/// The count of a masked point.
pub const MASKED: i32 = 65_536;

/// The closure of a face that has a masked point.
pub const CLOSURE_MASKED: i32 = 2;

/// A vertex's reading.
#[derive(Clone, Copy, Debug, PartialEq)]
pub enum Reading {
    /// Its phase in turns.
    Phase(f64),
    Masked,
}

impl Reading {
    /// The reading of a count: the count over 65,536, which is exact, or masked.
    pub fn of(count: i32) -> Reading {
        match count {
            MASKED => Reading::Masked,
            _ => Reading::Phase(f64::from(count) / 65_536.0),
        }
    }
}

/// An edge's step.
#[derive(Clone, Copy, Debug, PartialEq)]
pub enum Step {
    /// The turns from its lower vertex to its higher, at least −0.5 and below 0.5.
    Turns(f64),
    /// An end is masked.
    Masked,
}

impl Step {
    /// The step that `closures` has written for an edge: its float and its byte.
    pub fn of(turns: f64, masked: u8) -> Step {
        match masked {
            0 => Step::Turns(turns),
            _ => Step::Masked,
        }
    }
}

/// Phase closures, for triangles or tetrahedra: from a count for each vertex, the closure of each face, −1, 0 or 1 or
/// `CLOSURE_MASKED`, and the step of each edge, as a float and a byte, which `Step::of` takes. 1→0 and 2→0 have to be held, and
/// the lists N_0, N_2, N_1 and N_1 long. Where the call is refused, no list is altered.
///
/// ```no_run
/// # let (book, counts) = (vec![0; 500], vec![0; 4]);
/// let (mut closures, mut steps, mut masked) = ([0; 2], [0.0; 5], [0; 5]);
/// daybook::closures(&book, &counts, &mut closures, &mut steps, &mut masked)?;
/// let first = daybook::Step::of(steps[0], masked[0]);
/// # Ok::<(), daybook::Refusal>(())
/// ```
pub fn closures(book: &[u32], counts: &[i32], closures: &mut [i32], steps: &mut [f64], masked: &mut [u8]) -> Result<(), Refusal> {
    let mut place = Place::default();
    // SAFETY: as in `load`.
    let number = unsafe {
        c::daybook_closures(
            book.as_ptr(),
            book.len(),
            counts.as_ptr(),
            counts.len(),
            closures.as_mut_ptr(),
            closures.len(),
            steps.as_mut_ptr(),
            steps.len(),
            masked.as_mut_ptr(),
            masked.len(),
            &mut place.key,
            &mut place.position,
        )
    };
    place.answer(book, number, ())
}

/// An upright box: for each axis its least and its greatest coordinate; with two axes both of the third are 0.0.
#[derive(Clone, Copy, Debug, PartialEq)]
pub struct Bounds {
    pub least: [f64; 3],
    pub greatest: [f64; 3],
}

impl Bounds {
    /// The box of the six ends that a call writes: least and greatest by turns.
    fn of([a, b, c, d, e, f]: [f64; 6]) -> Bounds {
        Bounds { least: [a, c, e], greatest: [b, d, f] }
    }
}

/// The upright box of entity i of dimension d, over its vertices; for d = 0 that is the vertex itself. There are `axes`
/// coordinates, two or three, for each vertex, vertex by vertex, and each of them has to be finite. d→0 has to be held where d is
/// not 0. Each end along these axes is the coordinate of a vertex, bit for bit; of 0.0 and −0.0, where either could be the end, the one that comes
/// first by ascending vertices is.
///
/// ```no_run
/// # let (book, coordinates) = (vec![0; 500], vec![0.0; 8]);
/// let cell = daybook::box_of(&book, &coordinates, 2, 2, 0)?;
/// let wide = cell.greatest[0] - cell.least[0];
/// # Ok::<(), daybook::Refusal>(())
/// ```
pub fn box_of(book: &[u32], coordinates: &[f64], axes: u32, d: u32, i: u32) -> Result<Bounds, Refusal> {
    let (mut ends, mut place) = ([0.0; 6], Place::default());
    // SAFETY: as in `load`; there are six ends.
    let number = unsafe {
        c::daybook_box(
            book.as_ptr(),
            book.len(),
            coordinates.as_ptr(),
            coordinates.len(),
            axes,
            d,
            i,
            ends.as_mut_ptr(),
            &mut place.key,
            &mut place.position,
        )
    };
    place.answer(book, number, Bounds::of(ends))
}

/// The upright box of the whole mesh, over the vertices that lie in at least one cell, as `box_of` has it; `None` where there are
/// none. Points that no cell uses do not count, but their coordinates have to be finite too.
pub fn whole_box(book: &[u32], coordinates: &[f64], axes: u32) -> Result<Option<Bounds>, Refusal> {
    let (mut ends, mut some, mut place) = ([0.0; 6], 0, Place::default());
    // SAFETY: as in `box_of`.
    let number = unsafe {
        c::daybook_whole_box(
            book.as_ptr(),
            book.len(),
            coordinates.as_ptr(),
            coordinates.len(),
            axes,
            ends.as_mut_ptr(),
            &mut some,
            &mut place.key,
            &mut place.position,
        )
    };
    place.answer(book, number, (some == 1).then(|| Bounds::of(ends)))
}

/// What stands for the cell across an edge that lies in no other cell.
pub const NONE_ACROSS: u32 = 65_535;

/// The bytes that are enough for any rim.
pub const RIM_BYTES: usize = 13_316;

/// The places that are enough for the vertices of any rim.
pub const RIM_VERTICES: usize = 8_192;

/// The places that are enough for the edges of any rim.
pub const RIM_EDGES: usize = 4_096;

/// The cells across the three edges of a cell, in the order of its row of 2→1, from the list that `sheet` has written. It panics
/// where the list has no such cell.
pub fn across_of(across: &[u32], cell: u32) -> [Option<u32>; 3] {
    [0, 1, 2].map(|k| Some(across[3 * cell as usize + k]).filter(|&other| other != NONE_ACROSS))
}

/// What `sheet` says of a rim.
#[derive(Clone, Copy, Debug, PartialEq, Eq, Hash)]
pub struct Rim {
    /// The length of its file.
    pub length: usize,
    /// The number of its vertices.
    pub vertices: usize,
    /// The number of its edges.
    pub edges: usize,
}

impl Rim {
    /// The file that the call has written: the first of its bytes. It panics where there are fewer.
    pub fn file<'a>(&self, rim: &'a [u8]) -> &'a [u8] {
        &rim[..self.length]
    }

    /// The mesh's vertex for each vertex of the rim, from the list that the call has written. It panics where that is shorter.
    pub fn old_vertices<'a>(&self, rim_vertices: &'a [u32]) -> &'a [u32] {
        &rim_vertices[..self.vertices]
    }

    /// The mesh's edge for each edge of the rim, from the list that the call has written. It panics where that is shorter.
    pub fn old_edges<'a>(&self, rim_edges: &'a [u32]) -> &'a [u32] {
        &rim_edges[..self.edges]
    }
}

/// The sheet, for triangles of which one or two meet at each edge: writes to `across` the cell across each edge of each cell, which
/// `across_of` reads, and to `rim` the edges that lie in exactly one cell, as a day file with D = 1. Its vertices are those of
/// these edges, numbered anew by ascending number; `rim_vertices` gets the old number of each, and `rim_edges` that of each edge.
/// 1→0, 2→1 and 1→2 have to be held. `across` has to be 3·N_D long, the others as long as the rim needs or longer; later bytes and
/// places stay as they were. `RIM_BYTES`, `RIM_VERTICES` and `RIM_EDGES` are enough for any rim. Where the call is refused,
/// nothing is altered.
///
/// In a book that these calls alone have written the cell across goes back by the same edge, `load` accepts the rim in a book that
/// is large enough, and each vertex of the rim has an even number of its edges.
///
/// ```no_run
/// # let mut book = vec![0; 500];
/// daybook::ask(&mut book, 1, 2)?; // makes 1→0 and 2→1 too, in a book that has only been loaded
/// let (mut across, mut rim) = ([0; 6], [0; daybook::RIM_BYTES]);
/// let (mut vertices, mut edges) = ([0; daybook::RIM_VERTICES], [0; daybook::RIM_EDGES]);
/// let said = daybook::sheet(&book, &mut across, &mut rim, &mut vertices, &mut edges)?;
/// let beside = daybook::across_of(&across, 0);
/// let file = said.file(&rim);
/// # Ok::<(), daybook::Refusal>(())
/// ```
pub fn sheet(book: &[u32], across: &mut [u32], rim: &mut [u8], rim_vertices: &mut [u32], rim_edges: &mut [u32]) -> Result<Rim, Refusal> {
    let (mut length, mut vertices, mut edges, mut why, mut which, mut place) = (0, 0, 0, 0, 0, Place::default());
    // SAFETY: as in `load`.
    let number = unsafe {
        c::daybook_sheet(
            book.as_ptr(),
            book.len(),
            across.as_mut_ptr(),
            across.len(),
            rim.as_mut_ptr(),
            rim.len(),
            rim_vertices.as_mut_ptr(),
            rim_vertices.len(),
            rim_edges.as_mut_ptr(),
            rim_edges.len(),
            &mut length,
            &mut vertices,
            &mut edges,
            &mut why,
            &mut which,
            &mut place.key,
            &mut place.position,
        )
    };
    match number {
        28 => Err(Refusal::NotSheet(NotSheet::of(why, which))),
        _ => place.answer(book, number, Rim { length, vertices, edges }),
    }
}

/// The bytes of the longest day file.
pub const LONGEST_FILE: usize = 26_628;

/// The places that are enough for the cells dropped of any file.
pub const DROPPED_PLACES: usize = 8_192;

/// Why `salvage` dropped a cell: the first of these that applies.
#[derive(Clone, Copy, Debug, PartialEq, Eq, Hash)]
pub enum Why {
    /// 6: it is not whole in the file.
    NotWhole,
    /// 7: it names a vertex that is N_0 or more.
    VertexOut,
    /// 8: it names a vertex twice.
    VertexTwice,
    /// 23: it has the vertices of an earlier cell that is kept.
    CellTwice,
}

impl Why {
    /// The paper's number of this reason: 6, 7, 8 or 23.
    pub fn number(self) -> u32 {
        match self {
            Why::NotWhole => 6,
            Why::VertexOut => 7,
            Why::VertexTwice => 8,
            Why::CellTwice => 23,
        }
    }

    /// The reason that has this number, if one does.
    pub fn of(number: u32) -> Option<Why> {
        [Why::NotWhole, Why::VertexOut, Why::VertexTwice, Why::CellTwice].into_iter().find(|why| why.number() == number)
    }
}

impl fmt::Display for Why {
    fn fmt(&self, out: &mut fmt::Formatter<'_>) -> fmt::Result {
        out.write_str(match self {
            Why::NotWhole => "not whole in the file",
            Why::VertexOut => "a vertex out of range",
            Why::VertexTwice => "a vertex twice",
            Why::CellTwice => "equal to an earlier cell",
        })
    }
}

/// A cell that `salvage` dropped, by its number in the file.
#[derive(Clone, Copy, Debug, PartialEq, Eq, Hash)]
pub struct Dropped {
    pub cell: u32,
    pub why: Why,
}

impl fmt::Display for Dropped {
    fn fmt(&self, out: &mut fmt::Formatter<'_>) -> fmt::Result {
        write!(out, "cell {}: dropped, {} ({})", self.cell, self.why, self.why.number())
    }
}

/// What `salvage` says of a file.
#[derive(Clone, Copy, Debug, PartialEq, Eq, Hash)]
pub struct Salvaged {
    /// The length of the file written.
    pub length: usize,
    /// The number of cells dropped.
    pub dropped: usize,
    /// Whether a spare bit of the file's head was set.
    pub spare: bool,
    /// Whether a bit after the last vertex was set, of those that the file has up to the length that its head asks.
    pub pad: bool,
    /// Whether the file was not as long as its head asks.
    pub wrong_length: bool,
}

impl Salvaged {
    /// The file that the call has written: the first bytes of its output. It panics where that is shorter than the file.
    pub fn file<'a>(&self, out: &'a [u8]) -> &'a [u8] {
        &out[..self.length]
    }

    /// The cells dropped, by ascending number, from the list that the call has written. It panics where the list is another one
    /// and has not such numbers.
    pub fn cells<'a>(&self, dropped: &'a [u32]) -> impl Iterator<Item = Dropped> + 'a {
        let listed = &dropped[..2 * self.dropped];
        listed.chunks_exact(2).map(|pair| Dropped { cell: pair[0], why: Why::of(pair[1]).expect("6, 7, 8 or 23") })
    }
}

/// Salvages a day file: writes to `out` the file of the cells that can be kept, which `load` accepts in a book that is large
/// enough, and to `dropped` two numbers for each cell dropped, which `Salvaged::cells` reads. A file that `load` accepts comes back
/// as it is. Kept is each cell that is whole in the file, has its vertices below N_0 and none twice, and has not the vertices of an
/// earlier cell that is kept; cells and their vertices stay in the file's order. Later bytes and places stay as they were. An
/// `out` as long as the file is long enough, and so is `LONGEST_FILE`; `dropped` has to be 2·N_D long or longer, and
/// `DROPPED_PLACES` always is.
///
/// ```no_run
/// # let file: Vec<u8> = Vec::new();
/// let (mut out, mut dropped) = ([0; daybook::LONGEST_FILE], [0; daybook::DROPPED_PLACES]);
/// let said = daybook::salvage(&file, &mut out, &mut dropped)?;
/// for cell in said.cells(&dropped) {
///     eprintln!("{cell}");
/// }
/// let mut book = vec![0; daybook::words_for_sheet(2, 1900, 3700) as usize];
/// daybook::load(said.file(&out), &mut book)?;
/// # Ok::<(), daybook::Refusal>(())
/// ```
pub fn salvage(file: &[u8], out: &mut [u8], dropped: &mut [u32]) -> Result<Salvaged, Refusal> {
    let (mut length, mut count, mut spare, mut pad, mut wrong_length) = (0, 0, 0, 0, 0);
    // SAFETY: as in `load`.
    let number = unsafe {
        c::daybook_salvage(
            file.as_ptr(),
            file.len(),
            out.as_mut_ptr(),
            out.len(),
            dropped.as_mut_ptr(),
            dropped.len(),
            &mut length,
            &mut count,
            &mut spare,
            &mut pad,
            &mut wrong_length,
        )
    };
    answer(number, 0, Salvaged { length, dropped: count, spare: spare == 1, pad: pad == 1, wrong_length: wrong_length == 1 })
}

/// At most so many entities of dimension 1, 2 and 3, as if no two cells shared one.
const fn entities(dim: u32, cells: u32) -> [u64; 3] {
    let n = cells as u64;
    match dim {
        1 => [n, 0, 0],
        2 => [3 * n, n, 0],
        _ => [6 * n, 4 * n, n],
    }
}

/// The words of all relations but 1→1, 2→2 and 3→3.
const fn words_apart(dim: u32, vertices: u32, cells: u32) -> u64 {
    let [one, two, three] = entities(dim, cells);
    let (top, n) = (dim as u64, cells as u64);
    5 + (top + 1) * (vertices as u64 + one + two + three + top + 1) + 2 * (2 * one + 6 * two + 14 * three) + n * top * (top + 1)
}

/// Words that are enough for all relations of a sheet-like mesh, as `DAYBOOK_WORDS_SHEET` of the header.
pub const fn words_for_sheet(dim: u32, vertices: u32, cells: u32) -> u64 {
    let [one, two, three] = entities(dim, cells);
    let (edges, faces) = if dim == 3 { (37, 72) } else { (12, 11) };
    words_apart(dim, vertices, cells) + one * 2 * edges + two * 3 * faces + three * 4 * 35
}

/// Words that are enough for all relations of any mesh, as `DAYBOOK_WORDS_ANY` of the header.
pub const fn words_for_any(dim: u32, vertices: u32, cells: u32) -> u64 {
    let [one, two, three] = entities(dim, cells);
    words_apart(dim, vertices, cells) + one * one + two * two + three * three
}
