//! The paper's examples and each refusal, through the safe calls.
use daybook::{
    Bounds, Dropped, Found, NotSheet, Position, Reading, Refusal, Rim, Salvaged, Step, Why, CLOSURE_MASKED, FREE_WORDS, LONGEST_FILE, MASKED,
    DROPPED_PLACES, MOST_PAIRS, NONE_ACROSS, RIM_BYTES, RIM_EDGES, RIM_VERTICES,
};

/// The two triangles {0, 1, 3} and {1, 2, 3}.
const T: [u8; 14] = [0x80, 0x04, 0x00, 0x10, 0x00, 0x00, 0x00, 0x40, 0x06, 0x00, 0x10, 0x01, 0x00, 0x0C];

fn loaded(words: usize) -> Vec<u32> {
    let mut book = vec![7; words];
    daybook::load(&T, &mut book).unwrap();
    book
}

#[test]
fn t_is_loaded_in_fourteen_words() {
    assert_eq!(loaded(14), [0x80040010, 256, 0, 0, 14, 0, 3, 6, 0, 1, 3, 1, 2, 3]);
    let mut short = vec![7; 13];
    assert_eq!(daybook::load(&T, &mut short), Err(Refusal::NoRoom));
    assert_eq!(short, [7; 13]);
}

#[test]
fn all_relations_of_t_take_119_words() {
    let ask_all = |book: &mut [u32]| (0..9).try_for_each(|k| daybook::ask(book, k / 3, k % 3));
    let mut book = loaded(119);
    ask_all(&mut book).unwrap();
    assert_eq!(book[4], 119);
    assert_eq!(daybook::held_count(&book), Ok(9));
    assert_eq!(daybook::euler(&book), Ok(1));
    assert_eq!(daybook::row(&book, 2, 1, 1), Ok(&[2, 3, 4][..]));
    assert_eq!(daybook::row(&book, 1, 2, 2), Ok(&[0, 1][..]));
    assert_eq!(ask_all(&mut loaded(118)), Err(Refusal::NoRoom));
    assert!(daybook::words_for_sheet(2, 4, 2) >= 119 && daybook::words_for_any(2, 4, 2) >= 119);
}

#[test]
fn points_nobody_uses_do_not_count() {
    let euler = |file: &[u8]| -> Result<i64, Refusal> {
        let mut book = [7; 100];
        daybook::load(file, &mut book)?;
        (1..u32::from(file[0] >> 6)).try_for_each(|d| daybook::ask(&mut book, d, 0))?;
        daybook::euler(&book)
    };
    let mut t = T;
    t[1] = 44; // N_0, which is 4 in T
    assert_eq!(euler(&t), Ok(1));
    for dimension in 1..=3 {
        assert_eq!(euler(&[dimension << 6, 40, 0, 0]), Ok(0)); // forty points and no cells
    }
}

#[test]
fn a_list_is_one_ask_after_another() {
    let mut book = loaded(54);
    let mut answers = [Err(Refusal::NotHeld); 3];
    assert_eq!(daybook::ask_list(&mut book, &[(2, 1), (0, 0), (2, 1)], &mut answers), Ok(()));
    assert_eq!(answers, [Ok(()), Err(Refusal::NoRoom), Ok(())]);
    let mut alone = loaded(54);
    assert_eq!(daybook::ask(&mut alone, 2, 1), Ok(()));
    assert_eq!(book, alone);
    assert_eq!(daybook::ask_list(&mut book, &[], &mut []), Ok(()));
    assert_eq!(daybook::ask_list(&mut book, &[(2, 1); MOST_PAIRS], &mut [Err(Refusal::NotHeld); MOST_PAIRS]), Ok(()));
    for (broken, word) in [(Refusal::RowsBrokenSomewhere, 53), (Refusal::FrameBroken, 0)] {
        book[word] = 9;
        assert_eq!(daybook::ask_list(&mut book, &[(9, 9), (2, 1)], &mut answers[..2]), Ok(()));
        assert_eq!(answers, [Err(broken), Err(broken), Ok(())]);
    }
}

#[test]
fn a_list_that_is_refused_alters_nothing() {
    let before = loaded(200);
    let mut book = before.clone();
    for (pairs, places) in [(0, 1), (1, 0), (1, 2), (MOST_PAIRS, MOST_PAIRS + 1), (MOST_PAIRS, MOST_PAIRS - 1), (MOST_PAIRS + 1, MOST_PAIRS + 1), (40, 40), (40, 16), (16, 40)] {
        let mut answers = vec![Err(Refusal::NotHeld); places];
        assert_eq!(daybook::ask_list(&mut book, &vec![(2, 1); pairs], &mut answers), Err(Refusal::PairsOff));
        assert_eq!(answers, vec![Err(Refusal::NotHeld); places]);
        assert_eq!(book, before);
    }
    assert_eq!(daybook::ask_list(&mut [], &[(2, 1)], &mut []), Err(Refusal::PairsOff));
}

/// T with all nine relations and three free words. 0→0 begins at word 5, 1→0 at 46, 1→2 at 84, 2→0 at 96.
fn all_nine() -> Vec<u32> {
    let mut book = loaded(122);
    (0..9).try_for_each(|k| daybook::ask(&mut book, k / 3, k % 3)).unwrap();
    book
}

#[test]
fn a_relation_is_dropped_and_made_again() {
    let before = all_nine();
    let mut book = before.clone();
    assert_eq!(daybook::drop_relation(&mut book, 1, 0), Ok(()));
    assert_eq!(book[..5], [before[0], before[1] - 16, 5, 0, 103]);
    assert_eq!(book[5..46], before[5..46]);
    assert_eq!(book[46..103], before[62..119]);
    assert_eq!(book[103..], [0; 19]);
    assert_eq!(daybook::held_count(&book), Ok(8));
    assert_eq!(daybook::row(&book, 2, 1, 1), Ok(&[2, 3, 4][..]));
    assert_eq!(daybook::row(&book, 1, 0, 0), Err(Refusal::NotHeld));
    assert_eq!(daybook::euler(&book), Err(Refusal::NeedMissing));
    assert_eq!(daybook::make(&mut book, 1, 0), Ok(()));
    assert_eq!(book, before);
    for (d, e) in [(0, 0), (0, 1), (1, 1), (1, 2), (2, 1), (2, 2)] {
        assert_eq!(daybook::drop_relation(&mut book, d, e), Ok(()));
        assert_eq!(daybook::ask(&mut book, d, e), Ok(()));
        assert_eq!(book, before);
    }
}

#[test]
fn a_count_is_kept_while_a_relation_names_it() {
    let mut book = all_nine();
    for ((d, e), edges) in [((1, 0), 5), ((0, 1), 5), ((1, 1), 5), ((1, 2), 5), ((2, 1), 0)] {
        assert_eq!(daybook::drop_relation(&mut book, d, e), Ok(()));
        assert_eq!(book[2], edges);
    }
    assert_eq!(book[4], 45);
    assert_eq!(daybook::ask(&mut book, 2, 1), Ok(()));
    let mut fresh = loaded(122);
    for (d, e) in [(2, 1), (0, 0), (0, 2), (2, 2)] {
        daybook::ask(&mut fresh, d, e).unwrap();
    }
    assert_eq!(book, fresh);
}

#[test]
fn drops_are_refused() {
    let before = all_nine();
    let mut book = before.clone();
    assert_eq!(daybook::drop_relation(&mut book, 3, 0), Err(Refusal::DimensionOver));
    assert_eq!(daybook::drop_relation(&mut book, 0, 3), Err(Refusal::DimensionOver));
    assert_eq!(daybook::drop_relation(&mut book, 2, 0), Err(Refusal::CellsKept));
    assert_eq!(book, before);
    assert_eq!(daybook::drop_relation(&mut loaded(20), 1, 0), Err(Refusal::NotHeld));
    assert_eq!(daybook::drop_relation(&mut [], 1, 0), Err(Refusal::FrameBroken));
}

#[test]
fn a_book_that_lies_about_its_edges_is_refused() {
    let mut book = loaded(60);
    daybook::ask(&mut book, 0, 1).unwrap();
    daybook::drop_relation(&mut book, 1, 0).unwrap();
    book[2] = 6; // 0→1 keeps N_1, and T has 5 edges
    let before = book.clone();
    assert_eq!(daybook::make(&mut book, 1, 0), Err(Refusal::NumberDiffers));
    assert_eq!(daybook::ask(&mut book, 1, 1), Err(Refusal::NumberDiffers));
    let mut answers = [Ok(()); 3];
    assert_eq!(daybook::ask_list(&mut book, &[(2, 1), (0, 1), (1, 0)], &mut answers), Ok(()));
    assert_eq!(answers, [Err(Refusal::NumberDiffers), Ok(()), Err(Refusal::NumberDiffers)]);
    assert_eq!(book, before);
    assert_eq!(Refusal::NumberDiffers.to_string(), "refused 25");
}

#[test]
fn a_row_is_the_books_own_memory() {
    let book = loaded(14);
    let row = daybook::row(&book, 2, 0, 1).unwrap();
    assert_eq!(row, [1, 2, 3]);
    assert_eq!(row.as_ptr(), book[11..].as_ptr());
}

#[test]
fn a_search_reads_no_further_than_it_needs() {
    let mut book = loaded(60);
    assert_eq!(daybook::find(&book, 0, 1, 1, 3), Err(Refusal::NotHeld));
    daybook::ask(&mut book, 0, 1).unwrap();
    assert_eq!(daybook::row(&book, 0, 1, 1), Ok(&[0, 2, 3][..]));
    let find = |j| daybook::find(&book, 0, 1, 1, j);
    assert_eq!(find(3), Ok(Found { yes: true, read: 3 }));
    assert_eq!(find(1), Ok(Found { yes: false, read: 2 }));
    assert_eq!(find(4), Ok(Found { yes: false, read: 3 }));
    assert_eq!(find(5), Err(Refusal::NoSuchIndex));
    assert_eq!(daybook::find(&book, 0, 1, 4, 5), Err(Refusal::NoSuchEntity));
    assert_eq!(daybook::find(&book, 3, 0, 0, 0), Err(Refusal::DimensionOver));
    book[7] = 1;
    assert_eq!(daybook::find(&book, 0, 1, 1, 3), Err(Refusal::RowsBroken { key: 1, position: Position::Offset(2) }));
    assert_eq!(daybook::find(&[], 0, 1, 1, 3), Err(Refusal::FrameBroken));
}

/// What `closures` writes for T, whose edges are 0 1, 0 3, 1 3, 1 2 and 2 3 and whose faces are 0 1 3 and 1 2 3; floats by their bits.
fn closed(counts: &[i32]) -> Result<([i32; 2], [u64; 5], [u8; 5]), Refusal> {
    let mut book = loaded(40);
    daybook::ask(&mut book, 1, 0).unwrap();
    let (mut closures, mut steps, mut masked) = ([9; 2], [-0.0; 5], [9; 5]);
    let answer = daybook::closures(&book, counts, &mut closures, &mut steps, &mut masked);
    if answer.is_err() {
        assert_eq!((closures, steps.map(f64::to_bits), masked), ([9; 2], [(-0.0_f64).to_bits(); 5], [9; 5]));
    }
    answer.map(|()| (closures, steps.map(f64::to_bits), masked))
}

/// 65,536ths of a turn as the bits of a float.
fn bits(counts: [i32; 5]) -> [u64; 5] {
    counts.map(|k| (f64::from(k) / 65_536.0).to_bits())
}

#[test]
fn closures_are_exact() {
    assert_eq!(closed(&[0, 20000, -20000, 10000]), Ok(([0, 1], bits([20000, 10000, -10000, 25536, 30000]), [0; 5])));
    assert_eq!(closed(&[0, 20000, MASKED, 10000]), Ok(([0, CLOSURE_MASKED], bits([20000, 10000, -10000, 0, 0]), [0, 0, 0, 1, 1])));
    assert_eq!(closed(&[0, 21846, 0, -21846]), Ok(([1, -1], bits([21846, -21846, 21844, -21846, -21846]), [0; 5])));
    assert_eq!(closed(&[-32768, 0, -32768, -32768]), Ok(([-1, 0], bits([-32768, 0, -32768, -32768, 0]), [0; 5])));
}

#[test]
fn closures_are_refused() {
    assert_eq!(closed(&[0, 0, 0]), Err(Refusal::ListLength));
    assert_eq!(closed(&[0, 0, 65535]), Err(Refusal::ListLength));
    for outside in [65535, 65537, 32768, -32769, i32::MIN, i32::MAX] {
        assert_eq!(closed(&[0, outside, 0, 0]), Err(Refusal::CountOutside));
    }
    assert_eq!(daybook::closures(&loaded(40), &[], &mut [], &mut [], &mut []), Err(Refusal::NeedMissing));
    assert_eq!(daybook::closures(&[], &[], &mut [], &mut [], &mut []), Err(Refusal::FrameBroken));
}

#[test]
fn readings_and_steps() {
    assert_eq!([-32768, 1, MASKED].map(Reading::of), [Reading::Phase(-0.5), Reading::Phase(1.0 / 65536.0), Reading::Masked]);
    assert_eq!([Step::of(0.25, 0), Step::of(0.0, 1)], [Step::Turns(0.25), Step::Masked]);
}

/// T's vertices on two axes: 0.0 and −0.0, and the other way round, at the vertices 0 and 3.
const FLAT: [f64; 8] = [0.0, -0.0, 2.5, -1.0, -3.0, 4.0, -0.0, 0.0];

/// The bits of a box, least and greatest axis by axis.
fn ends(of: Bounds) -> [u64; 6] {
    let (low, high) = (of.least, of.greatest);
    [low[0], high[0], low[1], high[1], low[2], high[2]].map(f64::to_bits)
}

#[test]
fn boxes_by_the_bit() {
    let mut book = loaded(40);
    daybook::ask(&mut book, 1, 0).unwrap();
    let high = [0.0, -0.0, -7.0, 2.5, -1.0, 8.0, -3.0, 4.0, 1e308, -0.0, 0.0, -7.0];
    for (coordinates, axes, d, i, wanted) in [
        (&FLAT[..], 2, 2, 0, [0.0, 2.5, -1.0, -0.0, 0.0, 0.0]),
        (&FLAT[..], 2, 2, 1, [-3.0, 2.5, -1.0, 4.0, 0.0, 0.0]),
        (&FLAT[..], 2, 1, 1, [0.0, 0.0, -0.0, -0.0, 0.0, 0.0]),
        (&FLAT[..], 2, 0, 3, [-0.0, -0.0, 0.0, 0.0, 0.0, 0.0]),
        (&high[..], 3, 2, 0, [0.0, 2.5, -1.0, -0.0, -7.0, 8.0]),
        (&high[..], 3, 0, 2, [-3.0, -3.0, 4.0, 4.0, 1e308, 1e308]),
    ] {
        assert_eq!(daybook::box_of(&book, coordinates, axes, d, i).map(ends), Ok(wanted.map(f64::to_bits)));
    }
    let whole = Bounds { least: [-3.0, -1.0, -7.0], greatest: [2.5, 4.0, 1e308] };
    assert_eq!(daybook::whole_box(&book, &high, 3), Ok(Some(whole)));
    assert_eq!(daybook::whole_box(&book, &FLAT, 2).unwrap().map(ends), Some([-3.0, 2.5, -1.0, 4.0, 0.0, 0.0].map(f64::to_bits)));
}

#[test]
fn points_nobody_uses_have_no_box() {
    let mut t = T;
    t[1] = 6; // N_0, which is 4 in T
    let mut book = [7; 20];
    daybook::load(&t, &mut book).unwrap();
    let mut coordinates = FLAT.to_vec();
    coordinates.extend([-90.0, 90.0, 1e300, -1e300]);
    let whole = Bounds { least: [-3.0, -1.0, 0.0], greatest: [2.5, 4.0, 0.0] };
    assert_eq!(daybook::whole_box(&book, &coordinates, 2), Ok(Some(whole)));
    assert_eq!(daybook::box_of(&book, &coordinates, 2, 0, 4), Ok(Bounds { least: [-90.0, 90.0, 0.0], greatest: [-90.0, 90.0, 0.0] }));
    coordinates[11] = f64::NAN;
    assert_eq!(daybook::whole_box(&book, &coordinates, 2), Err(Refusal::NotFinite));
    daybook::load(&[0x80, 2, 0, 0], &mut book).unwrap(); // two points and no cells
    assert_eq!(daybook::whole_box(&book, &[1.0, 2.0, 3.0, 4.0], 2), Ok(None));
}

#[test]
fn boxes_are_refused() {
    let book = loaded(20);
    let bad = [f64::INFINITY, f64::NEG_INFINITY, f64::NAN, -f64::NAN];
    for (coordinates, axes, d, i, refusal) in [
        (&FLAT[..], 2, 3, 0, Refusal::DimensionOver),
        (&FLAT[..], 2, 1, 0, Refusal::NeedMissing),
        (&FLAT[..], 2, 2, 2, Refusal::NoSuchEntity),
        (&bad[..], 9, 0, 4, Refusal::NoSuchEntity),
        (&bad[..], 4, 2, 1, Refusal::AxisCount),
        (&bad[..], 1, 2, 1, Refusal::AxisCount),
        (&bad[..], 2, 2, 1, Refusal::ListLength),
        (&FLAT[..], 3, 2, 1, Refusal::ListLength),
    ] {
        assert_eq!(daybook::box_of(&book, coordinates, axes, d, i), Err(refusal));
    }
    assert_eq!([1, 2].map(|axes| daybook::whole_box(&book, &bad, axes)), [Err(Refusal::AxisCount), Err(Refusal::ListLength)]);
    for (at, value) in bad.into_iter().enumerate() {
        let mut coordinates = FLAT;
        coordinates[2 * at] = value;
        assert_eq!(daybook::box_of(&book, &coordinates, 2, 2, 1), Err(Refusal::NotFinite));
        assert_eq!(daybook::whole_box(&book, &coordinates, 2), Err(Refusal::NotFinite));
    }
    assert_eq!(daybook::box_of(&[], &[], 2, 0, 0), Err(Refusal::FrameBroken));
    assert_eq!(daybook::whole_box(&[], &[], 2), Err(Refusal::FrameBroken));
    assert_eq!(Refusal::NotFinite.to_string(), "refused 27");
}

#[test]
fn the_file_comes_back() {
    let mut bytes = [0xAA; 16];
    assert_eq!(daybook::write(&loaded(20), &mut bytes), Ok(14));
    assert_eq!(bytes[..14], T);
    assert_eq!(bytes[14..], [0xAA, 0xAA]);
}

#[test]
fn files_are_refused() {
    let refused = |file: &[u8]| daybook::load(file, &mut [7; 64]).unwrap_err();
    let with = |at: usize, byte: u8| {
        let mut file = T;
        file[at] = byte;
        refused(&file)
    };
    assert_eq!(refused(&T[..3]), Refusal::FileTooShort);
    assert_eq!(with(0, 0x00), Refusal::NoDimension);
    assert_eq!(with(0, 0xBF), Refusal::ManyVertices);
    assert_eq!(with(2, 0xFF), Refusal::ManyCells);
    assert_eq!(with(3, 0x11), Refusal::SpareBits);
    assert_eq!(refused(&T[..13]), Refusal::FileLength);
    assert_eq!(with(1, 0x03), Refusal::VertexOut(0));
    let mut twice = T;
    twice[11..13].copy_from_slice(&[0x00, 0x80]);
    assert_eq!(refused(&twice), Refusal::VertexTwice(1));
    let again = [0x80, 0x04, 0x00, 0x10, 0x00, 0x00, 0x00, 0x40, 0x06, 0x00, 0x30, 0x00, 0x00, 0x04]; // 0 1 3, then 3 0 1
    assert_eq!(refused(&again), Refusal::CellTwice(1));
    assert_eq!(refused(&again).to_string(), "refused 23, cell 1");
    assert_eq!(with(13, 0x0D), Refusal::BitsAfter);
    assert_eq!(refused(&[]), Refusal::FileTooShort);
}

/// What is said of a file, the file written and the cells dropped; with three bytes and three places more than are needed, which stay.
fn salvaged(file: &[u8], length: usize, cells: usize) -> (Salvaged, Vec<u8>, Vec<Dropped>) {
    let (mut out, mut dropped) = (vec![0xAA; length + 3], vec![7; 2 * cells + 3]);
    let said = daybook::salvage(file, &mut out, &mut dropped).unwrap();
    assert_eq!(out[said.length..], vec![0xAA; length + 3 - said.length]);
    assert_eq!(dropped[2 * said.dropped..], vec![7; 2 * cells + 3 - 2 * said.dropped]);
    let cells = said.cells(&dropped).collect();
    (said, said.file(&out).to_vec(), cells)
}

/// What is said where nothing is wrong.
const RIGHT: Salvaged = Salvaged { length: 14, dropped: 0, spare: false, pad: false, wrong_length: false };

#[test]
fn a_file_that_was_cut_is_salvaged() {
    let one = [0x80, 0x04, 0x00, 0x08, 0x00, 0x00, 0x00, 0x40, 0x06]; // cell 0 alone
    let (said, file, cells) = salvaged(&T[..13], 9, 2);
    assert_eq!(said, Salvaged { length: 9, dropped: 1, wrong_length: true, ..RIGHT });
    assert_eq!(file, one);
    assert_eq!(cells, [Dropped { cell: 1, why: Why::NotWhole }]);
    assert_eq!(cells[0].to_string(), "cell 1: dropped, not whole in the file (6)");
    let words = [(Why::VertexOut, "a vertex out of range (7)"), (Why::VertexTwice, "a vertex twice (8)"), (Why::CellTwice, "equal to an earlier cell (23)")];
    for (why, text) in words {
        assert_eq!(Dropped { cell: 9, why }.to_string(), format!("cell 9: dropped, {text}"));
    }
    assert_eq!(salvaged(&T[..9], 9, 2).1, one);
    assert_eq!(salvaged(&T[..8], 4, 2).1, [0x80, 0x04, 0x00, 0x00]);
    let mut book = [7; 10];
    assert_eq!(daybook::load(&file, &mut book), Ok(()));
    assert_eq!(book, [0x80040008, 256, 0, 0, 10, 0, 3, 0, 1, 3]);
    assert_eq!(salvaged(&file, 9, 1), (Salvaged { length: 9, ..RIGHT }, one.to_vec(), vec![]));
}

#[test]
fn what_is_wrong_with_a_file_is_said() {
    assert_eq!(salvaged(&T, 14, 2), (RIGHT, T.to_vec(), vec![]));
    let with = |at: usize, byte: u8| {
        let mut file = T;
        file[at] = byte;
        salvaged(&file, 14, 2)
    };
    assert_eq!(with(13, 0x0D), (Salvaged { pad: true, ..RIGHT }, T.to_vec(), vec![]));
    assert_eq!(with(3, 0x17), (Salvaged { spare: true, ..RIGHT }, T.to_vec(), vec![]));
    let mut long = T.to_vec();
    long.extend([0xFF; 40]);
    assert_eq!(salvaged(&long, 14, 2), (Salvaged { wrong_length: true, ..RIGHT }, T.to_vec(), vec![]));
    assert_eq!(with(1, 0x03).2, [0, 1].map(|cell| Dropped { cell, why: Why::VertexOut }));
}

#[test]
fn each_cell_dropped_has_its_reason() {
    // intervals among the vertices 0 to 2: 0 1, 1 0, 2 2, 3 3, 1 2, and one that is not there
    let file = [0x40, 0x03, 0x00, 0x30, 0x00, 0x00, 0x00, 0x40, 0x02, 0x00, 0x00, 0x01, 0x00, 0x08, 0x00, 0x60, 0x03, 0x00, 0x08, 0x00, 0x80];
    let (said, saved, cells) = salvaged(&file, 11, 6);
    assert_eq!(said, Salvaged { length: 11, dropped: 4, wrong_length: true, ..RIGHT });
    assert_eq!(saved, [0x40, 0x03, 0x00, 0x10, 0, 0, 0, 0x40, 0x02, 0x00, 0x20]);
    let why = [(1, Why::CellTwice), (2, Why::VertexTwice), (3, Why::VertexOut), (5, Why::NotWhole)];
    assert_eq!(cells, why.map(|(cell, why)| Dropped { cell, why }));
    assert_eq!(why.map(|(_, why)| why.number()), [23, 8, 7, 6]);
    assert!((0..30).filter_map(Why::of).map(Why::number).eq([6, 7, 8, 23]));
}

#[test]
fn salvages_are_refused() {
    let refused = |file: &[u8], length: usize, places: usize| {
        let (mut out, mut dropped) = (vec![0xAA; length], vec![7; places]);
        let refusal = daybook::salvage(file, &mut out, &mut dropped).unwrap_err();
        assert_eq!((out, dropped), (vec![0xAA; length], vec![7; places]));
        refusal
    };
    for length in [0, 40] {
        assert_eq!(refused(&T[..3], length, length), Refusal::FileTooShort);
        assert_eq!(refused(&[], length, length), Refusal::FileTooShort);
        assert_eq!(refused(&[0x3F, 0xFF, 0xFF, 0xFF], length, length), Refusal::NoDimension);
        assert_eq!(refused(&[0x60, 0x01, 0xFF, 0xFF], length, length), Refusal::ManyVertices);
        assert_eq!(refused(&[0x60, 0x00, 0x80, 0x0F], length, length), Refusal::ManyCells);
    }
    assert_eq!(refused(&T, 13, 3), Refusal::BufferTooShort);
    assert_eq!(refused(&T, 14, 3), Refusal::ListLength);
    assert_eq!(refused(&T[..13], 8, 4), Refusal::BufferTooShort);
    assert_eq!(refused(&T[..13], 9, 3), Refusal::ListLength);
    assert_eq!(refused(&T[..4], 4, 0), Refusal::ListLength);
}

#[test]
fn any_file_has_room() {
    let mut file = vec![0xFF; 2 * LONGEST_FILE];
    file[..4].copy_from_slice(&[0xE0, 0x00, 0x80, 0x00]); // 4,096 tetrahedra on 8,192 vertices; each names one vertex four times
    let (mut out, mut dropped) = (vec![0; LONGEST_FILE], vec![0; DROPPED_PLACES]);
    let said = daybook::salvage(&file, &mut out, &mut dropped).unwrap();
    assert_eq!(said, Salvaged { length: 4, dropped: 4096, wrong_length: true, ..RIGHT });
    assert!(said.cells(&dropped).eq((0..4096).map(|cell| Dropped { cell, why: Why::VertexTwice })));
    for cell in 0..4096_usize {
        // each cell shares two vertices with the next
        for (k, vertex) in [2 * cell, 2 * cell + 1, (2 * cell + 2) % 8192, (2 * cell + 3) % 8192].into_iter().enumerate() {
            for bit in 0..13 {
                let at = 32 + 13 * (4 * cell + k) + bit;
                let mask = 0x80 >> (at % 8);
                file[at / 8] = if vertex >> (12 - bit) & 1 == 1 { file[at / 8] | mask } else { file[at / 8] & !mask };
            }
        }
    }
    let said = daybook::salvage(&file, &mut out, &mut dropped).unwrap();
    assert_eq!(said, Salvaged { length: LONGEST_FILE, dropped: 0, wrong_length: true, ..RIGHT });
    assert_eq!(out, file[..LONGEST_FILE]);
}

/// The day file of triangles on so many vertices.
fn triangles(points: u32, cells: &[[u32; 3]]) -> Vec<u8> {
    let mut file = (2 << 30 | points << 16 | (cells.len() as u32) << 3).to_be_bytes().to_vec();
    let bits: Vec<u32> = cells.iter().flatten().flat_map(|v| (0..13).rev().map(move |k| v >> k & 1)).collect();
    file.extend(bits.chunks(8).map(|byte| byte.iter().enumerate().map(|(k, bit)| (bit << (7 - k)) as u8).sum::<u8>()));
    file
}

/// The book of a file with what the sheet needs: an ask for 1→2 makes 2→1 and 1→0 too.
fn laid_out(file: &[u8]) -> Vec<u32> {
    let mut book = vec![7; 150_000];
    daybook::load(file, &mut book).unwrap();
    daybook::ask(&mut book, 1, 2).unwrap();
    book
}

/// What a sheet gives: the cells across, what is said of the rim, its file, and the two maps.
type Given = (Vec<u32>, Rim, Vec<u8>, Vec<u32>, Vec<u32>);

/// The sheet with lists of these lengths; where it is refused they stay as they were, and where it is accepted what lies behind the rim does.
fn sheet(book: &[u32], sizes: [usize; 4]) -> Result<Given, Refusal> {
    let (mut across, mut rim, mut vertices, mut edges) = (vec![7; sizes[0]], vec![0xAA; sizes[1]], vec![7; sizes[2]], vec![7; sizes[3]]);
    let said = match daybook::sheet(book, &mut across, &mut rim, &mut vertices, &mut edges) {
        Ok(said) => said,
        Err(refusal) => {
            assert_eq!((across, rim, vertices, edges), (vec![7; sizes[0]], vec![0xAA; sizes[1]], vec![7; sizes[2]], vec![7; sizes[3]]));
            return Err(refusal);
        }
    };
    assert_eq!(rim[said.length..], vec![0xAA; sizes[1] - said.length]);
    assert_eq!(vertices[said.vertices..], vec![7; sizes[2] - said.vertices]);
    assert_eq!(edges[said.edges..], vec![7; sizes[3] - said.edges]);
    let (file, vertices, edges) = (said.file(&rim).to_vec(), said.old_vertices(&vertices).to_vec(), said.old_edges(&edges).to_vec());
    Ok((across, said, file, vertices, edges))
}

/// The rim of T: its edges are 0 1, 0 3, 1 2 and 2 3, and all its vertices are at the rim.
const RIM_OF_T: [u8; 17] = [0x40, 0x04, 0x00, 0x20, 0x00, 0x00, 0x00, 0x40, 0x00, 0x00, 0x30, 0x00, 0x80, 0x08, 0x00, 0x40, 0x03];

#[test]
fn t_is_a_sheet() {
    let book = laid_out(&T);
    const N: u32 = NONE_ACROSS;
    let wanted = (vec![N, N, 1, 0, N, N], Rim { length: 17, vertices: 4, edges: 4 }, RIM_OF_T.to_vec(), vec![0, 1, 2, 3], vec![0, 1, 3, 4]);
    for sizes in [[6, 17, 4, 4], [6, 20, 7, 9], [6, RIM_BYTES, RIM_VERTICES, RIM_EDGES]] {
        assert_eq!(sheet(&book, sizes), Ok(wanted.clone()));
    }
    assert_eq!([0, 1].map(|cell| daybook::across_of(&wanted.0, cell)), [[None, None, Some(1)], [Some(0), None, None]]);
    let mut rim = [7; 18];
    assert_eq!(daybook::load(&RIM_OF_T, &mut rim), Ok(()));
    assert_eq!(rim, [0x40040020, 16, 0, 0, 18, 0, 2, 4, 6, 8, 0, 1, 0, 3, 1, 2, 2, 3]);
}

#[test]
fn inner_vertices_are_not_at_the_rim() {
    let book = laid_out(&triangles(4, &[[2, 1, 0], [0, 2, 3], [3, 0, 1]])); // around vertex 0
    const N: u32 = NONE_ACROSS;
    let rim = vec![0x40, 0x03, 0x00, 0x18, 0x00, 0x00, 0x00, 0x40, 0x02, 0x00, 0x20, 0x00, 0x00, 0x08]; // 0 1, 1 2, 0 2, which are 1 2, 2 3, 1 3
    let wanted = (vec![2, 1, N, 0, 2, N, 0, 1, N], Rim { length: 14, vertices: 3, edges: 3 }, rim, vec![1, 2, 3], vec![2, 4, 5]);
    assert_eq!(sheet(&book, [9, 14, 3, 3]), Ok(wanted));
}

#[test]
fn a_closed_surface_has_no_rim() {
    let none = Rim { length: 4, vertices: 0, edges: 0 };
    let book = laid_out(&triangles(4, &[[0, 1, 2], [0, 1, 3], [0, 2, 3], [1, 2, 3]]));
    let across = vec![1, 2, 3, 0, 2, 3, 0, 1, 3, 0, 1, 2];
    for sizes in [[12, 4, 0, 0], [12, 9, 3, 3]] {
        assert_eq!(sheet(&book, sizes), Ok((across.clone(), none, vec![0x40, 0, 0, 0], vec![], vec![])));
    }
    assert_eq!(sheet(&laid_out(&triangles(0, &[])), [0, 4, 0, 0]), Ok((vec![], none, vec![0x40, 0, 0, 0], vec![], vec![])));
}

#[test]
fn no_sheets_say_why() {
    let why = |book: &[u32]| match [[6, 17, 4, 4], [0, 0, 0, 0]].map(|sizes| sheet(book, sizes)) {
        [Err(Refusal::NotSheet(one)), Err(Refusal::NotSheet(other))] if one == other => one,
        given => panic!("{given:?}"),
    };
    let mut book = [7; 40];
    daybook::load(&[0x40, 0x02, 0x00, 0x08, 0x00, 0x00, 0x00, 0x40], &mut book).unwrap(); // an interval
    assert_eq!(why(&book), NotSheet::Dimension);
    assert_eq!(why(&laid_out(&triangles(6, &[[0, 1, 3], [1, 3, 5]]))), NotSheet::Vertex(2));
    assert_eq!(why(&laid_out(&triangles(5, &[[0, 2, 3], [0, 1, 4], [0, 1, 2], [0, 1, 3]]))), NotSheet::Edge(3));
    let mut lying = all_nine();
    assert_eq!(lying[105..114], [0, 3, 6, 0, 1, 2, 2, 3, 4]); // 2→1
    lying[111] = 1; // for edge 2 of cell 1; edge 1 lists cell 0 alone
    assert_eq!(why(&lying), NotSheet::Cell(1));
    let texts = ["D is not 2", "vertex 2 lies in no cell", "edge 3 does not lie in one cell or two", "cell 1 has not three edges that list it"];
    let all = [NotSheet::Dimension, NotSheet::Vertex(2), NotSheet::Edge(3), NotSheet::Cell(1)];
    assert_eq!(all.map(|why| Refusal::NotSheet(why).to_string()), texts.map(|text| format!("refused 28, {text}")));
    assert_eq!(all.map(NotSheet::number), [1, 2, 3, 4]);
}

#[test]
fn sheets_are_refused() {
    let mut book = laid_out(&T);
    assert_eq!(sheet(&book, [5, 16, 3, 3]), Err(Refusal::BufferTooShort));
    for sizes in [[5, 17, 4, 4], [7, 17, 4, 4], [6, 17, 3, 4], [6, 17, 4, 3], [0, 17, 0, 0]] {
        assert_eq!(sheet(&book, sizes), Err(Refusal::ListLength));
    }
    for (d, e) in [(1, 0), (2, 1), (1, 2)] {
        daybook::drop_relation(&mut book, d, e).unwrap();
        assert_eq!(sheet(&book, [6, 17, 4, 4]), Err(Refusal::NeedMissing));
        daybook::ask(&mut book, d, e).unwrap();
    }
    assert!(sheet(&book, [6, 17, 4, 4]).is_ok());
    assert_eq!(sheet(&[], [0; 4]), Err(Refusal::FrameBroken));
}

#[test]
fn a_rim_has_at_most_4096_edges() {
    let ribbon = |count: u32| triangles(count + 2, &(0..count).map(|c| [c, c + 1, c + 2]).collect::<Vec<_>>());
    let (across, said, ..) = sheet(&laid_out(&ribbon(4094)), [3 * 4094, RIM_BYTES, 4096, RIM_EDGES]).unwrap();
    assert_eq!(said, Rim { length: RIM_BYTES, vertices: 4096, edges: RIM_EDGES });
    assert_eq!(across.iter().filter(|&&other| other == NONE_ACROSS).count(), 4096);
    // 4,096 triangles, no two of which have an edge in common
    let apart: Vec<_> = (0..4096).map(|c| [2 * c, 2 * c + 1, (2 * c + 2) % 8192]).collect();
    for file in [ribbon(4095), triangles(8192, &apart)] {
        let book = laid_out(&file);
        let cells = (book[0] >> 3 & 0x1FFF) as usize;
        for sizes in [[3 * cells, RIM_BYTES, RIM_VERTICES, RIM_EDGES], [3 * cells, 40_000, 20_000, 20_000], [0; 4]] {
            assert_eq!(sheet(&book, sizes), Err(Refusal::LongRim));
        }
    }
    assert_eq!(Refusal::LongRim.to_string(), "refused 29");
}

/// The rows of d→e as plain answers give them, for all j up to the first that is none.
fn plain_rows(book: &[u32], d: u32, e: u32) -> Vec<Vec<u32>> {
    let row = |i: u32| -> Result<Vec<u32>, Refusal> {
        let mut yes = Vec::new();
        for j in 0.. {
            match daybook::plain(book, d, e, i, j) {
                Ok(true) => yes.push(j),
                Ok(false) => (),
                Err(Refusal::NoSuchIndex) => break,
                Err(refusal) => return Err(refusal),
            }
        }
        Ok(yes)
    };
    (0..).map(row).take_while(|row| *row != Err(Refusal::NoSuchEntity)).map(Result::unwrap).collect()
}

/// The rows of T: its edges are 0 1, 0 3, 1 3, 1 2 and 2 3.
fn rows_of_t() -> [((u32, u32), Vec<Vec<u32>>); 9] {
    [
        ((0, 0), vec![vec![1, 3], vec![0, 2, 3], vec![1, 3], vec![0, 1, 2]]),
        ((0, 1), vec![vec![0, 1], vec![0, 2, 3], vec![3, 4], vec![1, 2, 4]]),
        ((0, 2), vec![vec![0], vec![0, 1], vec![1], vec![0, 1]]),
        ((1, 0), vec![vec![0, 1], vec![0, 3], vec![1, 3], vec![1, 2], vec![2, 3]]),
        ((1, 1), vec![vec![1, 2, 3], vec![0, 2, 4], vec![0, 1, 3, 4], vec![0, 2, 4], vec![1, 2, 3]]),
        ((1, 2), vec![vec![0], vec![0], vec![0, 1], vec![1], vec![1]]),
        ((2, 0), vec![vec![0, 1, 3], vec![1, 2, 3]]),
        ((2, 1), vec![vec![0, 1, 2], vec![2, 3, 4]]),
        ((2, 2), vec![vec![1], vec![0]]),
    ]
}

#[test]
fn plain_answers_are_the_rows() {
    let book = all_nine();
    for ((d, e), rows) in rows_of_t() {
        assert_eq!(plain_rows(&book, d, e), rows, "{d}→{e}");
        for (i, row) in (0..).zip(&rows) {
            assert_eq!(daybook::row(&book, d, e, i), Ok(&row[..]));
        }
    }
}

#[test]
fn plain_answers_need_the_cells_alone() {
    let mut book = loaded(122);
    for ((d, e), rows) in rows_of_t() {
        assert_eq!(plain_rows(&book[..14], d, e), rows, "{d}→{e} of the cells alone");
    }
    (0..9).try_for_each(|k| daybook::ask(&mut book, k / 3, k % 3)).unwrap();
    for (d, e) in [(1, 0), (0, 0), (2, 2), (0, 1), (1, 1), (1, 2), (2, 1), (0, 2)] {
        daybook::drop_relation(&mut book, d, e).unwrap();
        for ((d, e), rows) in rows_of_t() {
            assert_eq!(plain_rows(&book, d, e), rows, "{d}→{e} after a drop");
        }
    }
    assert_eq!(book[..14], loaded(14));
}

#[test]
fn plain_answers_number_faces_too() {
    let mut book = [7; 200];
    // two tetrahedra, 3 1 0 2 and 4 2 3 1, and vertex 5, which neither has
    let file = [0xC0, 0x06, 0x00, 0x10, 0x00, 0x18, 0x00, 0x40, 0x00, 0x00, 0x20, 0x02, 0x00, 0x08, 0x00, 0x60, 0x01];
    daybook::load(&file, &mut book).unwrap();
    assert_eq!(book[..16], [0xC0060010, 1 << 12, 0, 0, 16, 0, 4, 8, 0, 1, 2, 3, 1, 2, 3, 4]);
    // its faces are 012 013 023 123 and 124 134 234, its edges 01 02 03 12 13 23 and 14 24 34
    let edges = [[0, 1, 3], [0, 2, 4], [1, 2, 5], [3, 4, 5], [3, 6, 7], [4, 6, 8], [5, 7, 8]];
    assert_eq!(plain_rows(&book, 2, 1), edges);
    assert_eq!(plain_rows(&book, 3, 2), [[0, 1, 2, 3], [3, 4, 5, 6]]);
    assert_eq!(plain_rows(&book, 2, 3), [vec![0], vec![0], vec![0], vec![0, 1], vec![1], vec![1], vec![1]]);
    assert_eq!(plain_rows(&book, 1, 1)[0], [1, 2, 3, 4, 6]);
    assert_eq!(plain_rows(&book, 0, 0)[4..], [vec![1, 2, 3], vec![]]);
    assert_eq!(plain_rows(&book, 0, 2)[5], []);
    daybook::ask(&mut book, 2, 1).unwrap();
    for (i, row) in (0..).zip(&edges) {
        assert_eq!(daybook::row(&book, 2, 1, i), Ok(&row[..]));
    }
}

#[test]
fn plain_answers_go_by_the_cells_in_a_book_that_lies() {
    let mut lying = all_nine();
    lying[56] = 2; // 1→0 has 2 3 for its edge 2, which is 1 3
    lying[111] = 1; // 2→1 has edge 1 for edge 2 of cell 1
    assert_eq!(daybook::find(&lying, 2, 1, 1, 1), Ok(Found { yes: true, read: 1 }));
    assert_eq!(daybook::plain(&lying, 2, 1, 1, 1), Ok(false));
    for ((d, e), rows) in rows_of_t() {
        assert_eq!(plain_rows(&lying, d, e), rows, "{d}→{e}");
    }
    for edges in [5, 6] {
        let mut book = loaded(60);
        daybook::ask(&mut book, 0, 1).unwrap();
        daybook::drop_relation(&mut book, 1, 0).unwrap();
        book[2] = edges; // 0→1 keeps N_1, and T has 5 edges
        let wanted = if edges == 5 { Err(Refusal::NoSuchIndex) } else { Ok(Found { yes: false, read: 2 }) };
        assert_eq!(daybook::find(&book, 0, 1, 0, 5), wanted);
        assert_eq!(daybook::plain(&book, 0, 1, 0, 5), Err(Refusal::NoSuchIndex));
        assert_eq!(daybook::plain(&book, 1, 0, 5, 0), Err(Refusal::NoSuchEntity));
        assert_eq!(plain_rows(&book, 1, 2).len(), 5);
    }
}

#[test]
fn plain_answers_are_refused() {
    let mut book = loaded(20);
    for (d, e, i, j, refusal) in [
        (3, 0, 9, 9, Refusal::DimensionOver),
        (0, 3, 0, 0, Refusal::DimensionOver),
        (u32::MAX, u32::MAX, 0, 0, Refusal::DimensionOver),
        (0, 1, 4, 0, Refusal::NoSuchEntity),
        (1, 0, 5, 4, Refusal::NoSuchEntity),
        (2, 2, u32::MAX, u32::MAX, Refusal::NoSuchEntity),
        (0, 1, 3, 5, Refusal::NoSuchIndex),
        (1, 0, 4, 4, Refusal::NoSuchIndex),
        (2, 2, 1, 2, Refusal::NoSuchIndex),
    ] {
        assert_eq!(daybook::plain(&book, d, e, i, j), Err(refusal));
    }
    book[19] = 1;
    assert_eq!(daybook::plain(&book, 9, 9, 9, 9), Err(Refusal::RowsBroken { key: FREE_WORDS, position: Position::FreeWord(5) }));
    book[2] = 1;
    assert_eq!(daybook::plain(&book, 2, 0, 0, 0), Err(Refusal::FrameBroken));
    assert_eq!(daybook::plain(&[], 9, 9, 9, 9), Err(Refusal::FrameBroken));
}

#[test]
fn books_and_numbers_are_refused() {
    let mut book = loaded(200);
    assert_eq!(daybook::make(&mut book, 2, 1), Err(Refusal::NeedMissing));
    assert_eq!(daybook::make(&mut book, 2, 0), Err(Refusal::AlreadyHeld));
    assert_eq!(daybook::make(&mut book, 1, 0), Ok(()));
    assert_eq!(daybook::ask(&mut book, 3, 0), Err(Refusal::DimensionOver));
    assert_eq!(daybook::row(&book, 2, 1, 0), Err(Refusal::NotHeld));
    assert_eq!(daybook::row(&book, 2, 0, 2), Err(Refusal::NoSuchEntity));
    assert_eq!(daybook::write(&book, &mut [0; 13]), Err(Refusal::BufferTooShort));
    assert_eq!(daybook::euler(&loaded(20)), Err(Refusal::NeedMissing));
    book[199] = 1;
    assert_eq!(daybook::ask(&mut book, 1, 1), Err(Refusal::RowsBroken { key: FREE_WORDS, position: Position::FreeWord(169) }));
    book[4] = 0;
    assert_eq!(daybook::held_count(&book), Err(Refusal::FrameBroken));
    assert_eq!(daybook::held_count(&[]), Err(Refusal::FrameBroken));
    assert_eq!(Refusal::VertexOut(3).to_string(), "refused 7, cell 3");
}

/// T with all nine relations and three free words, and this word changed.
fn broken(at: usize, word: u32) -> Vec<u32> {
    let mut book = all_nine();
    book[at] = word;
    book
}

#[test]
fn a_refusal_says_where_the_book_is_broken() {
    for (at, word, key, position, text) in [
        (5, 1, 0, Position::Offset(0), "refused 11, relation 0→0, offset 0"),
        (8, 11, 0, Position::Offset(4), "refused 11, relation 0→0, offset 4"),
        (10, 4, 0, Position::Index(0), "refused 11, relation 0→0, index 0"),
        (48, 3, 4, Position::Offset(2), "refused 11, relation 1→0, offset 2"),
        (61, 4, 4, Position::Index(9), "refused 11, relation 1→0, index 9"),
        (88, 7, 6, Position::Offset(5), "refused 11, relation 1→2, offset 5"),
        (93, 0, 6, Position::Index(3), "refused 11, relation 1→2, index 3"),
        (97, 2, 8, Position::Offset(1), "refused 11, relation 2→0, offset 1"),
        (104, 2, 8, Position::Index(5), "refused 11, relation 2→0, index 5"),
        (119, 1, FREE_WORDS, Position::FreeWord(0), "refused 11, free word 0"),
        (121, 1, FREE_WORDS, Position::FreeWord(2), "refused 11, free word 2"),
    ] {
        let mut book = broken(at, word);
        let refusal = Refusal::RowsBroken { key, position };
        assert_eq!(daybook::make(&mut book, 9, 9), Err(refusal));
        assert_eq!(daybook::ask(&mut book, 2, 0), Err(refusal));
        assert_eq!(daybook::drop_relation(&mut book, 9, 9), Err(refusal));
        assert_eq!(daybook::write(&book, &mut []), Err(refusal));
        assert_eq!(daybook::euler(&book), Err(refusal));
        assert_eq!(daybook::closures(&book, &[], &mut [], &mut [], &mut []), Err(refusal));
        assert_eq!(daybook::box_of(&book, &[], 9, 9, 9), Err(refusal));
        assert_eq!(daybook::whole_box(&book, &[], 9), Err(refusal));
        assert_eq!(sheet(&book, [1; 4]), Err(refusal));
        assert_eq!(daybook::plain(&book, 9, 9, 9, 9), Err(refusal));
        assert_eq!(refusal.to_string(), text);
    }
}

#[test]
fn a_row_says_which_of_its_offsets_is_broken() {
    for (word, i, at) in [(7, 0, 1), (7, 1, 1), (3, 1, 2)] {
        let book = broken(85, word);
        let refusal = Refusal::RowsBroken { key: 6, position: Position::Offset(at) };
        assert_eq!(daybook::row(&book, 1, 2, i), Err(refusal));
        assert_eq!(daybook::find(&book, 1, 2, i, 9), Err(refusal));
        assert_eq!(daybook::row(&book, 1, 2, 2), Ok(&[0, 1][..]));
    }
}

#[test]
fn numbers_are_the_papers() {
    let all = [
        Refusal::FileTooShort, Refusal::NoDimension, Refusal::ManyVertices, Refusal::ManyCells, Refusal::SpareBits, Refusal::FileLength,
        Refusal::VertexOut(0), Refusal::VertexTwice(0), Refusal::BitsAfter, Refusal::FrameBroken,
        Refusal::RowsBroken { key: 0, position: Position::Offset(0) }, Refusal::DimensionOver, Refusal::NoRoom, Refusal::AlreadyHeld,
        Refusal::NeedMissing, Refusal::NotHeld, Refusal::NoSuchEntity, Refusal::BufferTooShort,
        Refusal::NoSuchIndex, Refusal::PairsOff, Refusal::ListLength, Refusal::CountOutside, Refusal::CellTwice(0),
        Refusal::CellsKept, Refusal::NumberDiffers, Refusal::AxisCount, Refusal::NotFinite, Refusal::NotSheet(NotSheet::Dimension), Refusal::LongRim,
    ];
    assert!(all.iter().map(|r| r.number()).eq(1..=29));
    assert_eq!(Refusal::RowsBrokenSomewhere.number(), 11);
    assert_eq!(Refusal::RowsBrokenSomewhere.to_string(), "refused 11");
}

#[test]
fn threads_with_books_of_their_own() {
    std::thread::scope(|scope| {
        for _ in 0..4 {
            scope.spawn(|| {
                let mut book = loaded(200);
                daybook::ask(&mut book, 2, 2).unwrap();
                assert_eq!(daybook::row(&book, 2, 2, 0), Ok(&[1][..]));
            });
        }
    });
}
