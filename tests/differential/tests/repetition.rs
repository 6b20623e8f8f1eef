//! Repetition of term rows: number 6 is given at a row exactly if an older one holds its five words. Tables of terms
//! alone, against that sentence and against the reference. A repeated row keeps 5, as the older one did, and 6 comes
//! before 7.

use differential::compare::{on_both, Buffers, Call};
use differential::generate::tables::{some_shape, table, Shape};
use differential::random::Random;
use differential::reference::layout::{word, Counts, MAX_INDEX, MAX_LEVEL, MAX_TERMS};
use differential::reference::reading::{operand_count, Reading};
use differential::reference::Refusal;
use std::collections::BTreeSet;

/// A tag and four operands.
type Row = [u16; 5];

const TAGS: [u16; 13] = [1, 2, 3, 4, 5, 6, 7, 8, 9, 10, 11, 12, 13];
/// Mostly ind: rows with fewer than four parts are too few to fill a bucket.
const TAGS_WITH_PARTS: [u16; 10] = [3, 5, 7, 12, 13, 13, 13, 13, 13, 13];
const BUCKETS: u64 = 2048;
/// How many variables `crowded` begins with, so that an operand of the rows behind them may be nearly any number.
const VARIABLES: u16 = 2700;
/// What the work buffer holds before.
const UNTOUCHED: u32 = 0xA5A5_A5A5;

/// The bucket of five words in the library's index of rows (crates/terms/specs/RowIndex.antt). It only serves to make
/// chains of the index long and full of rows that are nearly equal: no answer that is expected depends on it.
fn bucket(row: Row) -> u64 {
    let factors = [1_597_463, 2_654_435, 1_140_671, 805_459, 433_495];
    let mixed = row
        .iter()
        .zip(factors)
        .map(|(&word, factor)| u64::from(word % 4096) * factor);
    mixed.sum::<u64>() / 1024 % BUCKETS
}

/// The sheet of these rows, without contexts and lines.
fn sheet_of(rows: &[Row]) -> Vec<u8> {
    let counts = Counts {
        edition: 1,
        terms: rows.len(),
        contexts: 0,
        lines: 0,
    };
    let words = [&rows.concat()[..], &counts.trailer()].concat();
    words.iter().flat_map(|word| word.to_le_bytes()).collect()
}

/// The rows of a sheet.
fn rows_of(sheet: &[u8]) -> Vec<Row> {
    let counts = Counts::stated(sheet);
    let row = |n| std::array::from_fn(|place| word(sheet, counts.term_at(n) + 2 * place));
    (0..counts.terms).map(row).collect()
}

/// The first fault of the rows, once both sides answer alike and leave the same words in the work buffer.
fn refusal(rows: &[Row]) -> Option<Refusal> {
    let sheet = sheet_of(rows);
    let buffers = Buffers {
        work: vec![UNTOUCHED; rows.len() + 2],
        ..Buffers::default()
    };
    let (outcome, difference) = on_both(&Reading::of(&sheet), &sheet, Call::Admit, buffers);
    assert_eq!(difference, None);
    let (number, place) = (outcome.answer.number, outcome.answer.values[0]);
    (number != 0).then_some(Refusal { number, place })
}

fn repeated(place: usize) -> Option<Refusal> {
    Some(Refusal { number: 6, place })
}

/// The number that a row gets behind an accepted table, 0 if it is accepted: 6 exactly if the table holds its words.
fn number_behind(table: &[Row], row: Row) -> usize {
    let refusal = refusal(&[table, &[row]].concat());
    assert_eq!(
        refusal == repeated(table.len()),
        table.contains(&row),
        "{row:?}"
    );
    assert_eq!(
        refusal.map_or(table.len(), |fault| fault.place),
        table.len()
    );
    refusal.map_or(0, |fault| fault.number)
}

/// How many of the rows get each number behind an accepted table.
fn numbers_behind(table: &[Row], rows: impl Iterator<Item = Row>) -> [usize; 8] {
    let mut numbers = [0; 8];
    for row in rows {
        numbers[number_behind(table, row)] += 1;
    }
    numbers
}

/// A row of one of the tags, with operands below a limit.
fn some_row(tags: &[u16], below: usize, random: &mut Random) -> Row {
    let tag = random.pick(tags).expect("a tag");
    let operands = operand_count(tag).expect("a tag");
    let mut row = [tag, 0, 0, 0, 0];
    row[1..=operands].fill_with(|| random.below(below) as u16);
    row
}

/// The variables and universes of a bucket.
fn leaves_of(chosen: u64) -> Vec<Row> {
    let variables = (0..=MAX_INDEX as u16).map(|index| [1, index, 0, 0, 0]);
    let universes = (0..=MAX_LEVEL as u16).map(|level| [2, level, 0, 0, 0]);
    let all = variables.chain(universes);
    all.filter(|&row| bucket(row) == chosen).collect()
}

/// So many rows of one bucket: its leaves, and rows over the first 40, which keeps terms small. None if the leaves are
/// too few for others to be found over them.
fn grown(chosen: u64, rows: usize, random: &mut Random) -> Option<Vec<Row>> {
    let mut table = leaves_of(chosen);
    if table.len() < 7 {
        return None;
    }
    while table.len() < rows {
        let below = table.len().min(40);
        let fits = |row: &Row| bucket(*row) == chosen && !table.contains(row);
        let mut tried = (0..40_000).map(|_| some_row(&TAGS_WITH_PARTS, below, random));
        let row = tried.find(fits)?;
        table.push(row);
    }
    Some(table)
}

/// A table of so many rows that all lie in one bucket.
fn one_bucket(rows: usize) -> Vec<Row> {
    let mut random = Random::new(0);
    let table = (0..BUCKETS).find_map(|chosen| grown(chosen, rows, &mut random));
    let table = table.expect("a bucket with enough leaves");
    assert!(table.iter().all(|&row| bucket(row) == bucket(table[0])));
    assert_eq!((table.len(), refusal(&table)), (rows, None));
    table
}

#[test]
fn a_copy_of_any_row_of_a_long_chain_is_refused() {
    let table = one_bucket(200);
    let numbers = numbers_behind(&table, table.iter().copied());
    assert_eq!(numbers, [0, 0, 0, 0, 0, 0, 200, 0]);
}

fn with_word(mut row: Row, place: usize, value: u16) -> Row {
    row[place] = value;
    row
}

/// The rows that share the bucket of one and differ from it in the word at a place alone, which is below a limit.
fn twins(row: Row, place: usize, below: u16) -> impl Iterator<Item = Row> {
    let others = (0..below).map(move |value| with_word(row, place, value));
    others.filter(move |&other| other != row && bucket(other) == bucket(row))
}

/// Rows that differ from one in the word at a place alone: those of other tags with as many parts, which never share
/// its bucket, or the twins over the variables.
fn nearly_equal(row: Row, place: usize) -> Vec<Row> {
    let parts = operand_count(row[0]);
    let alike = |&&tag: &&u16| tag != row[0] && operand_count(tag) == parts;
    let tags = TAGS[2..].iter().filter(alike);
    match place {
        0 => tags.map(|&tag| with_word(row, 0, tag)).collect(),
        _ if parts < Some(place) => Vec::new(),
        _ => twins(row, place, VARIABLES).collect(),
    }
}

/// A table of variables, rows over them, and behind these the rows nearly equal to every third; returned with the rows
/// over the variables.
fn crowded() -> (Vec<Row>, Vec<Row>) {
    let mut random = Random::new(0);
    let some = (0..100).map(|_| some_row(&TAGS_WITH_PARTS, usize::from(VARIABLES), &mut random));
    let older: Vec<Row> = some.collect();
    let all_nearly_equal = |&row: &Row| (0..5).flat_map(move |place| nearly_equal(row, place));
    let mut table: Vec<Row> = (0..VARIABLES).map(|index| [1, index, 0, 0, 0]).collect();
    table.extend(&older);
    table.extend(older.iter().step_by(3).flat_map(all_nearly_equal));
    assert_eq!(refusal(&table), None);
    (table, older)
}

#[test]
fn rows_of_a_chain_that_differ_in_one_word_are_told_apart() {
    let (table, older) = crowded();
    let numbers = [0, 1, 2, 3, 4].map(|place| {
        let rows = older.iter().flat_map(|&row| nearly_equal(row, place));
        numbers_behind(&table, rows)
    });
    let often = numbers.map(|n| n[0] > 5 && n[6] > 5 && n[0] + n[6] == n.iter().sum());
    assert_eq!(often, [true; 5], "{numbers:?}");
}

/// The other rows over the variables that share a row's bucket and the low byte of each of its words.
fn equal_in_low_bytes(row: Row) -> Vec<Row> {
    let parts = operand_count(row[0]).expect("a tag");
    let values = |place: usize| (row[place] % 256..VARIABLES).step_by(256);
    let vary = |rows: Vec<Row>, place: usize| -> Vec<Row> {
        let with_each = |row| values(place).map(move |value| with_word(row, place, value));
        rows.into_iter().flat_map(with_each).collect()
    };
    let mut rows = (1..=parts).fold(vec![row], vary);
    rows.retain(|&other| other != row && bucket(other) == bucket(row));
    rows
}

#[test]
fn rows_of_a_chain_with_equal_low_bytes_are_told_apart() {
    let (table, older) = crowded();
    let rows = older
        .iter()
        .take(20)
        .flat_map(|&row| equal_in_low_bytes(row));
    let numbers = numbers_behind(&table, rows);
    assert!(
        numbers[0] > 50 && numbers[0] == numbers.iter().sum(),
        "{numbers:?}"
    );
}

/// An older and a newer row: at both ends of a table, one next to the other, and far apart.
fn pairs(rows: usize, random: &mut Random) -> [(usize, usize); 7] {
    let last = rows - 1;
    let newer = 1 + random.below(last);
    let older = random.below(newer);
    [
        (0, 1),
        (last - 1, last),
        (0, last),
        (newer - 1, newer),
        (0, newer),
        (older, newer),
        (older, last),
    ]
}

/// Puts copies of older rows into an accepted table: one, then another not before it.
fn refuse_copies(table: &[Row], random: &mut Random) {
    for (older, newer) in pairs(table.len(), random) {
        let mut rows = table.to_vec();
        rows[newer] = table[older];
        assert_eq!(refusal(&rows), repeated(newer));
        let behind = newer + random.below(rows.len() - newer);
        rows[behind] = table[random.below(newer)];
        assert_eq!(refusal(&rows), repeated(newer));
    }
}

fn refuse_copies_at_random(seed: u64, rows: usize) {
    let mut random = Random::new(seed);
    let shape = Shape {
        rows,
        ..some_shape(1, &mut random)
    };
    let table = rows_of(&table(shape, &mut random));
    assert_eq!((table.len(), refusal(&table)), (rows, None));
    refuse_copies(&table, &mut random);
}

#[test]
fn a_copy_at_any_distance_is_refused_at_its_place() {
    for seed in 0..300 {
        refuse_copies_at_random(seed, 2 + seed as usize % 99);
    }
}

#[test]
fn a_copy_in_a_full_table_is_refused_at_its_place() {
    for seed in 0..8 {
        refuse_copies_at_random(seed, MAX_TERMS);
    }
}

#[test]
fn a_copy_in_a_full_chain_is_refused_at_its_place() {
    let sample = include_bytes!("../../../crates/samples/data/one_bucket.sheet");
    let table = rows_of(sample);
    let chain = table.iter().filter(|&&row| bucket(row) == bucket(table[0]));
    assert_eq!((table.len(), chain.count()), (MAX_TERMS, 3064));
    assert_eq!(refusal(&table), None);
    refuse_copies(&table, &mut Random::new(0));
}

/// Rows at random over so few parts that many are equal: the first that is repeated, if one is.
fn first_repeated(random: &mut Random) -> Option<usize> {
    let few = random.pick(&[2, 3, 5, 8]).expect("a number");
    let length = 2 + random.below(39);
    let behind = (1..length).map(|n| some_row(&TAGS, few.min(n), random));
    let rows: Vec<Row> = [[10, 0, 0, 0, 0]].into_iter().chain(behind).collect();
    let first = (1..length).find(|&n| rows[..n].contains(&rows[n]));
    assert_eq!(refusal(&rows), first.and_then(repeated), "{rows:?}");
    first
}

#[test]
fn the_first_of_many_repeated_rows_is_reported() {
    let mut random = Random::new(0);
    let first: Vec<Option<usize>> = (0..4_000).map(|_| first_repeated(&mut random)).collect();
    let none = first.iter().filter(|place| place.is_none()).count();
    let places: BTreeSet<Option<usize>> = first.into_iter().collect();
    assert!(none > 400 && places.len() > 25, "{none}, {places:?}");
}
