//! M-105: an index beside the table. Hashes of texts are published test vectors
//! of FNV-1a; places are worked out by hand from its definition.

use crate::build::{cm, int, mo, one_module, pa, report_example, table};
use crate::program::{printed, printed_bytes};
use reference::index::{self, Sought, FREE, INDEX};
use reference::refusal::Refusal;
use reference::table::Table;

/// Three accessibles, of which the first two start from the last place and the
/// third from the first.
fn round_the_end() -> Vec<u8> {
    let digit = int(0, 9);
    table(&[
        mo("m", ""),
        pa("a19", "", 0, &digit, b"0"),
        cm("a237", ""),
        pa("a76", "", 0, &digit, b"0"),
    ])
}

fn filled(table: &[u8]) -> [u8; INDEX] {
    let mut index = [0; INDEX];
    index::fill(table, &mut index).expect("a good table");
    index
}

/// An index that is free but for some places.
fn index_of(places: &[(usize, u8)]) -> [u8; INDEX] {
    let mut index = [FREE; INDEX];
    places
        .iter()
        .for_each(|(place, number)| index[*place] = *number);
    index
}

/// What is found in the table of three, and the bytes and accessibles it took.
fn sought(index: &[u8], name: &str) -> (Option<usize>, usize, usize) {
    let table = Table::judge(&round_the_end()).expect("a good table");
    let Sought {
        found,
        looked,
        walked,
    } = index::seek(&table, index, b"m", name.as_bytes()).expect("a module");
    (found, looked, walked)
}

// I-3
#[test]
fn the_hash_is_fnv_1a() {
    assert_eq!(index::hash(b""), 0x811c_9dc5);
    assert_eq!(index::hash(b"a"), 0xe40c_292c);
    assert_eq!(index::hash(b"foobar"), 0xbf9c_f968);
}

// I-3
#[test]
fn a_place_starts_from_the_hash_of_both_names() {
    assert_eq!(index::start(b"t1", b"target"), 13);
    assert_eq!(index::start(b"t1", b"value"), 93);
    assert_eq!(index::start(b"t1", b"mode"), 7);
    assert_eq!(index::start(b"t1", b"stop"), 108);
}

// I-2
#[test]
fn a_byte_has_the_number_over_parameters_and_commands_together() {
    assert_eq!(
        filled(&report_example()),
        index_of(&[(93, 0), (7, 1), (108, 2)])
    );
}

// I-4
#[test]
fn a_taken_place_goes_on_to_the_next_free_byte_round_the_end() {
    assert_eq!(
        filled(&round_the_end()),
        index_of(&[(127, 0), (0, 1), (1, 2)])
    );
}

// I-5, I-7
#[test]
fn a_present_name_is_found_in_the_index_without_a_walk() {
    let index = filled(&round_the_end());
    assert_eq!(sought(&index, "a19"), (Some(0), 1, 0));
    assert_eq!(sought(&index, "a237"), (Some(1), 2, 0));
    assert_eq!(sought(&index, "a76"), (Some(2), 2, 0));
}

/// `a282` starts from the last place too.
// I-5, I-6
#[test]
fn a_free_byte_ends_the_look_and_all_accessibles_are_walked() {
    let index = filled(&round_the_end());
    assert_eq!(sought(&index, "a282"), (None, 4, 3));
    assert_eq!(sought(&[FREE; INDEX], "a237"), (Some(1), 1, 2));
}

// I-5
#[test]
fn a_scribbled_index_changes_the_steps_alone() {
    assert_eq!(sought(&[0; INDEX], "a19"), (Some(0), 1, 0));
    assert_eq!(sought(&[0; INDEX], "a237"), (Some(1), 128, 2));
    assert_eq!(sought(&[0; INDEX], "a282"), (None, 128, 3));
}

// I-5, I-6
#[test]
fn a_number_past_the_last_offers_nothing_and_counts() {
    let index = index_of(&[(127, 3), (0, 254), (1, 1)]);
    assert_eq!(sought(&index, "a237"), (Some(1), 3, 0));
}

// I-6
#[test]
fn without_an_index_the_steps_are_those_of_the_walk() {
    assert_eq!(sought(&[], "a19"), (Some(0), 0, 1));
    assert_eq!(sought(&[], "a76"), (Some(2), 0, 3));
    assert_eq!(sought(&[], "a282"), (None, 0, 3));
}

// I-1
#[test]
fn bytes_past_the_index_do_not_count() {
    let index = [&filled(&round_the_end())[..], &[0; 3]].concat();
    assert_eq!(sought(&index, "a237"), (Some(1), 2, 0));
}

// I-6
#[test]
fn nothing_is_sought_where_there_is_no_module() {
    let table = Table::judge(&round_the_end()).expect("a good table");
    assert_eq!(index::seek(&table, &[], b"n", b"a19"), None);
    assert_eq!(index::seek(&table, &[], b"M", b"a19"), None);
}

// I-4, I-8
#[test]
fn a_refused_filling_writes_nothing() {
    let mut short = [7; INDEX - 1];
    let good = round_the_end();
    assert_eq!(index::fill(&good, &mut short), Err(Refusal::Index));
    assert_eq!(Refusal::Index.number(), 18);
    assert_eq!(
        index::fill(&good[..9], &mut short),
        Err(Refusal::Layout),
        "1 to 6 come first"
    );
    assert_eq!(short, [7; INDEX - 1]);
    let mut index = [7; INDEX];
    let twice = one_module(&[cm("a", ""), cm("A", "")]);
    assert_eq!(index::fill(&twice, &mut index), Err(Refusal::Names));
    assert_eq!(index, [7; INDEX]);
}

// I-4
#[test]
fn a_filling_writes_128_bytes() {
    let mut lent = [7; INDEX + 2];
    index::fill(&round_the_end(), &mut lent).expect("a good table");
    assert_eq!(lent[..INDEX], filled(&round_the_end()));
    assert_eq!(lent[INDEX..], [7, 7]);
}

/// The bounds of document 02 are reached, and kept.
// I-7
#[test]
fn the_vectors_reach_the_bounds() {
    let input = printed_bytes(&["index-input", "1", "60"], "");
    let output = printed(&["index-output", "1", "60"], "");
    let operations = |letter: &str| {
        output
            .lines()
            .filter(|line| line.starts_with(letter))
            .count()
    };
    assert!(input.len() > 100_000 && operations("fill 18 ") > 50 && operations("fill 0 ") > 50);
    let steps = output.lines().filter_map(|line| line.split_once(" steps "));
    let steps: Vec<usize> = steps
        .map(|(_, steps)| steps.parse().expect("a number"))
        .collect();
    assert_eq!(steps.iter().max(), Some(&192));
}

/// The steps of the calls that a program is run on, for each part by its name.
fn steps_of_calls(part: &str) -> Vec<usize> {
    let printed = printed(&["calls-output", "1", "0"], "");
    let (_, rest) = printed
        .split_once(&format!("# {part}\n"))
        .expect("a part of this name");
    let (part, _) = rest.split_once("\n# ").expect("another part");
    let steps = part.lines().filter_map(|line| line.strip_prefix("piece "));
    steps
        .map(|line| line.split(' ').nth(3).expect("a fourth number"))
        .map(|steps| steps.parse().expect("a number"))
        .collect()
}

/// Of 64 accessibles that all start from one place the n-th takes n steps with
/// no index and with a filled one; one that is missing takes all there are.
#[test]
fn the_calls_reach_the_bounds() {
    let steps = steps_of_calls("crowded indexes");
    let present: Vec<usize> = (1..=64).collect();
    assert_eq!(steps.len(), 3 * 65);
    assert_eq!(steps[..64], present);
    assert_eq!(steps[64], 64);
    assert_eq!(steps[65..129], present);
    assert_eq!(steps[194], 192);
}

#[test]
fn the_calls_without_an_index_count_the_walk() {
    // Four accessibles: m:a19, m:a237, m:a76 and n:value.
    let read = [1, 3, 4, 2, 4, 4, 3, 4, 0, 0, 0];
    let change = [3, 3, 4, 4];
    let command = [2, 2, 1];
    let other = [0; 8];
    let cut = [0, 1, 1, 3];
    let expected = [&read[..], &change, &command, &other, &cut].concat();
    assert_eq!(steps_of_calls("index 0"), expected);
    // Where `check` is known it seeks; the index is filled.
    let checks = &steps_of_calls("index of an edition")[18..21];
    assert_eq!(checks, [2, 2, 0]);
}
