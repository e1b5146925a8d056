//! Calls to be written, from a seed: numbers at the edges of each field's width, lists of any
//! length and of unequal ones, buffers of any length. About half of the calls are writable.

use crate::generators::random::Random;
use crate::model::replay::{
    causes, frame_length, row, Cause, Fields, Row, KIND_WIDTH, LONGEST_LINE, ROWS,
};

/// The kinds of call that the writer writes.
pub fn kinds() -> impl Iterator<Item = u8> {
    ROWS.iter().map(|row| row.kind)
}

/// A call of the kind, with none to three numbers that do not fit their fields.
pub fn call(random: &mut Random, kind: u8) -> Fields {
    let row = row(kind).expect("a kind of the table");
    let count = usize::from(!row.item.is_empty());
    let before_count = &row.fields[..row.fields.len() - count];
    let lengths = lengths(random, row);
    let mut fields = Fields {
        kind,
        numbers: before_count
            .iter()
            .map(|&(_, width)| fitting(random, width))
            .collect(),
        lists: std::iter::zip(row.item, lengths)
            .map(|(&(_, width), length)| (0..length).map(|_| fitting(random, width)).collect())
            .collect(),
    };
    for _ in 0..random.one_of(&[0, 0, 0, 0, 0, 1, 1, 2, 3]) {
        spoil(random, row, &mut fields);
    }
    fields
}

/// The lengths of the lists, one for each field of an item.
fn lengths(random: &mut Random, row: &Row) -> Vec<usize> {
    if row.item.is_empty() {
        return Vec::new();
    }
    let [head, item] =
        [row.fields, row.item].map(|fields| fields.iter().map(|&(_, width)| width).sum::<usize>());
    let most = (LONGEST_LINE - KIND_WIDTH - head) / item;
    let mut length = || match random.between(1, 20) {
        1..=12 => random.between(0, most as u64) as usize,
        13..=14 => most,
        15..=16 => most + 1,
        17..=19 => random.between(0, 20) as usize,
        // Counts that are 0 or small in two digits, and lengths of a line that are so.
        _ => random.one_of(&[32, 64, 255, 256, 257, 264, 512]),
    };
    let (one, other) = (length(), length());
    let lengths = match random.between(1, 20) {
        1..=17 => [one, one],
        18 => [one, one + 1],
        19 => [one + 1, one],
        _ => [one, other],
    };
    lengths[..row.item.len()].to_vec()
}

/// The least number that does not fit the width.
fn above(width: usize) -> u64 {
    1 << (4 * width)
}

fn fitting(random: &mut Random, width: usize) -> u64 {
    let highest = above(width) - 1;
    let small = random.between(0, 40);
    let any = random.between(0, highest);
    let of_any_size = random.of_any_size(0, highest);
    random.one_of(&[0, small, any, of_any_size, highest - 1, highest])
}

/// Just above the width, or with digits that fit behind others that do not.
fn too_wide(random: &mut Random, width: usize) -> u64 {
    let (least, fits) = (above(width), fitting(random, width));
    let raised = fits | 1 << random.between(4 * width as u64, 63);
    let of_any_size = random.of_any_size(least, u64::MAX);
    random.one_of(&[least, least + 1, raised, raised, of_any_size, u64::MAX])
}

/// Makes a number too wide for its field, if there is any.
fn spoil(random: &mut Random, row: &Row, fields: &mut Fields) {
    let numbers = std::iter::zip(&mut fields.numbers, row.fields);
    let numbers = numbers.map(|(number, &(_, width))| (number, width));
    let items = std::iter::zip(&mut fields.lists, row.item)
        .flat_map(|(list, &(_, width))| list.iter_mut().map(move |number| (number, width)));
    let mut places: Vec<(&mut u64, usize)> = numbers.chain(items).collect();
    if !places.is_empty() {
        let place = random.index(places.len());
        let (number, width) = &mut places[place];
        **number = too_wide(random, *width);
    }
}

/// The length of a buffer for the call's frame: exact, one byte short, longer, empty, or any
/// shorter one. For a call that is not writable, around the frame that it would have.
pub fn buffer(random: &mut Random, fields: &Fields) -> usize {
    let exact = frame_length(fields);
    match random.between(1, 10) {
        1..=4 => exact,
        5..=6 => exact - 1,
        7..=8 => exact + random.of_any_size(1, 200) as usize,
        9 => 0,
        _ => random.index(exact),
    }
}

/// What a call with a buffer of so many bytes shows.
pub fn behaviour(fields: &Fields, length: usize) -> String {
    let exact = frame_length(fields);
    match causes(fields)[..] {
        [] if length == exact => "written into an exact buffer".into(),
        [] if length > exact => "written into a longer one".into(),
        [] if length == 0 => "13, empty".into(),
        [] if length == exact - 1 => "13, one byte short".into(),
        [] => "13, shorter".into(),
        [cause] if length >= exact => format!("14, {}", name(cause)),
        [cause] => format!("14, {}, before 13", name(cause)),
        _ => "14, several causes".into(),
    }
}

fn name(cause: Cause) -> &'static str {
    match cause {
        Cause::Field => "field",
        Cause::UnequalLists => "unequal lists",
        Cause::Length => "length",
    }
}
