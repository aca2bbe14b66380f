//! A state to its last byte: what the reference program keeps, laid out as the
//! library has it, and the first difference by field and client.

use crate::difference::same;
use crate::library::Library;
use jihfasul::state::LINE;
use jihfasul::{Counts, State};
use reference::kept::Kept;
use std::fmt::Debug;

/// Compares every byte of the library's state and of its values area with what
/// is kept.
pub fn same_kept(library: &mut Library, kept: &Kept) -> Result<(), String> {
    same_bytes(&library.state, &laid_out(kept))?;
    library.values.expect(0, &kept.values);
    let difference = library.values.difference();
    same("place in the values area", &difference, &None)
}

fn laid_out(kept: &Kept) -> State {
    let mut state = State::NOTHING;
    let State {
        clients,
        settings,
        counts,
    } = &mut state;
    for (c, client) in kept.clients.iter().enumerate() {
        clients.open[c] = client.open;
        clients.overlong[c] = client.overlong;
        clients.active[c] = client.active;
        clients.length[c] = client.length;
        clients.lines[LINE * c..][..LINE].copy_from_slice(&client.line);
    }
    for (p, setting) in kept.settings.iter().enumerate() {
        settings.length[p] = setting.length;
        settings.error[p] = setting.error;
        settings.time[p] = setting.time;
    }
    *counts = kept.counts.map(|one| Counts {
        lines: one.lines,
        errors: one.errors,
        updates: one.updates,
    });
    state
}

/// Compares states field by field; there are no bytes between the fields.
fn same_bytes(found: &State, due: &State) -> Result<(), String> {
    if found == due {
        return Ok(());
    }
    let (have, want) = (&found.clients, &due.clients);
    each("open flag of client", &have.open, &want.open)?;
    each("overlong flag of client", &have.overlong, &want.overlong)?;
    each("active mask of client", &have.active, &want.active)?;
    each("line length of client", &have.length, &want.length)?;
    each_line(&have.lines, &want.lines)?;
    let (have, want) = (&found.settings, &due.settings);
    each("stored length of parameter", &have.length, &want.length)?;
    each("error of parameter", &have.error, &want.error)?;
    each("time of parameter", &have.time, &want.time)?;
    each("counts of client", &found.counts, &due.counts)?;
    same("state", found, due)
}

fn each_line(found: &[u8], due: &[u8]) -> Result<(), String> {
    let mut places = found.chunks(LINE).zip(due.chunks(LINE)).enumerate();
    places.try_for_each(|(c, (found, due))| {
        each(&format!("line's place of client {c}, byte"), found, due)
    })
}

/// The first of a field's parts that differ.
fn each<T: Debug + PartialEq>(what: &str, found: &[T], due: &[T]) -> Result<(), String> {
    let mut parts = found.iter().zip(due);
    match parts.position(|(found, due)| found != due) {
        Some(at) => same(&format!("{what} {at}"), &found[at], &due[at]),
        None => Ok(()),
    }
}

#[cfg(test)]
mod tests {
    use super::*;
    use std::mem::{size_of, transmute};

    const SIZE: usize = size_of::<State>();

    /// A state with one byte altered.
    fn altered(state: &State, place: usize) -> State {
        // A state is numbers with no bytes between them, and any bytes are one.
        let mut bytes: [u8; SIZE] = unsafe { transmute(*state) };
        bytes[place] ^= 1;
        unsafe { transmute(bytes) }
    }

    /// What is told of each altered byte, up to the number that differs.
    fn told() -> Vec<String> {
        let due = laid_out(&Kept::new(0));
        let differences = (0..SIZE).map(|place| same_bytes(&altered(&due, place), &due));
        let first_line = |told: String| told.lines().next().unwrap_or_default().to_string();
        differences
            .map(|difference| first_line(difference.expect_err("it is altered")))
            .collect()
    }

    #[test]
    fn each_altered_byte_is_told_by_its_field() {
        let told = told();
        let count = |what: &str| told.iter().filter(|one| one.starts_with(what)).count();
        assert_eq!(count("open flag of client "), 8);
        assert_eq!(count("overlong flag of client "), 8);
        assert_eq!(count("active mask of client "), 16);
        assert_eq!(count("line length of client "), 16);
        assert_eq!(count("line's place of client "), 8_192);
        assert_eq!(count("stored length of parameter "), 128);
        assert_eq!(count("error of parameter "), 64);
        assert_eq!(count("time of parameter "), 512);
        assert_eq!(count("counts of client "), 96);
        assert_eq!(told.len(), 9_040);
        assert_eq!(count("state"), 0);
    }

    #[test]
    fn a_byte_is_told_by_its_client() {
        let mut kept = Kept::new(0);
        let due = laid_out(&kept);
        kept.clients[5].line[1_023] = b'x';
        let told = same_bytes(&laid_out(&kept), &due);
        let expected = "line's place of client 5, byte 1023\n  found 120\n  due   0";
        assert_eq!(told, Err(expected.to_string()));
        kept.clients[2].open = 5;
        let told = same_bytes(&laid_out(&kept), &due);
        let expected = "open flag of client 2\n  found 5\n  due   0";
        assert_eq!(told, Err(expected.to_string()));
    }
}
