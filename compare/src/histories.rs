//! A history through the library and through the plain node, call by call, with
//! the bytes of a state kept beside the node.

use crate::bytes::same_kept;
use crate::difference::{same, same_answer, Counts, Difference};
use crate::library::{readable, Library, Shown};
use crate::seen::Seen;
use reference::generate::free;
use reference::history::{Answer, Call, History, Player};
use reference::kept::Kept;
use reference::node::{self, Node, MIN_VALUES};
use reference::operation::VALUES_AREA;
use reference::random::Random;
use reference::refusal::Refusal;
use reference::table::Table;

/// What a history sends in all, and how it ends.
#[derive(Debug, PartialEq)]
pub struct Course {
    pub sent: Vec<u8>,
    end: Seen,
    values: Vec<Shown>,
}

impl Course {
    /// Compares how it ends with how another does, for one client.
    pub fn same_for(&self, due: &Course, client: usize) -> Result<(), String> {
        self.end.same_for(&due.end, client)?;
        same("values", &self.values, &due.values)
    }
}

/// Runs a history; the first call is a start. Between the calls what none of them
/// looks at is changed now and then, as it follows from a seed.
pub fn run(history: &History, seed: u64, counts: &mut Counts) -> Result<Course, Difference> {
    let mut random = Random::new(seed);
    let mut sides = Sides::over(&history.table);
    let mut sent = Vec::new();
    for (at, call) in history.calls.iter().enumerate() {
        sides.scribble(&mut random);
        let found = sides.call(call);
        let found = found.map_err(|text| Difference { call: at + 1, text })?;
        if call.is_made() {
            counts.add(&found);
            sent.extend(found.outbox);
        }
    }
    let Sides {
        mut library,
        player,
        ..
    } = sides;
    let node = player.node().expect("a start makes a node").state();
    let refusal = Table::judge(&history.table).err();
    let call = history.calls.len();
    let values = same("table", &library.table, &history.table)
        .and_then(|()| library.fill())
        .and_then(|()| same_values(&mut library, node, refusal));
    Ok(Course {
        sent,
        end: Seen::in_library(&library.state, node.parameters.len()),
        values: values.map_err(|text| Difference { call, text })?,
    })
}

/// The library, the plain node, and the bytes that are kept beside the node.
struct Sides {
    library: Library,
    player: Player,
    kept: Kept,
}

impl Sides {
    fn over(table: &[u8]) -> Sides {
        let mut library = Library::new(table);
        let mut kept = Kept::new(VALUES_AREA);
        let values = library.values.front(VALUES_AREA);
        kept.values.copy_from_slice(values);
        Sides {
            library,
            player: Player::new(table),
            kept,
        }
    }

    /// Changes now and then what no call looks at. The plain node has no place
    /// for it.
    fn scribble(&mut self, random: &mut Random) {
        let state = self.player.node().map(Node::state);
        let parameters = state.map_or(0, |state| state.parameters.len());
        for poke in free::some(random, &self.kept, parameters) {
            poke.apply(&mut self.kept);
            self.library.poke(&poke);
        }
    }

    /// Makes a call, and compares its answer and what it leaves.
    fn call(&mut self, call: &Call) -> Result<Answer, String> {
        let due = self.player.call(call).expect("the first call is a start");
        if let Call::Lend { index } = call {
            self.library.lend(index);
            return Ok(due);
        }
        let node = self.player.node().expect("a start makes a node");
        self.kept.follow(call, &due, node);
        let found = self.library.call(call)?;
        same_answer(call, &found, &due)?;
        let said = Seen::in_library(&self.library.state, node.state().parameters.len());
        said.same(&Seen::in_node(node.state()))?;
        same_kept(&mut self.library, &self.kept)?;
        Ok(found)
    }
}

/// Each parameter's value, and what is refused.
fn same_values(
    library: &mut Library,
    node: &node::State,
    refusal: Option<Refusal>,
) -> Result<Vec<Shown>, String> {
    let table = |other: Refusal| Shown::refused(refusal.unwrap_or(other).number());
    let count = node.parameters.len() as u64;
    for parameter in [count, 64, 256, u64::MAX] {
        let found = library.value(MIN_VALUES, parameter);
        same("no value", &found, &table(Refusal::NoSuchParameter))?;
        let found = library.value(MIN_VALUES - 1, parameter);
        same("short values area", &found, &table(Refusal::Values))?;
    }
    let mut values = Vec::new();
    for (held, parameter) in node.parameters.iter().zip(0..) {
        let due = match held.error {
            Some(error) => Shown::in_error(error.class(), held.time),
            None => Shown {
                number: 0,
                error: 0,
                text: readable(&held.value),
                time: held.time,
                set: held.set,
            },
        };
        let found = library.value(MIN_VALUES, parameter);
        same("value", &found, &due)?;
        values.push(found);
    }
    Ok(values)
}

/// Runs a history that is another one cut and mingled anew: it sends the same
/// bytes and ends the same.
pub fn run_second(
    second: &History,
    seed: u64,
    first: &Course,
    counts: &mut Counts,
) -> Result<(), Difference> {
    let course = run(second, seed, counts)?;
    let call = second.calls.len();
    let end = course
        .end
        .same(&first.end)
        .and_then(|()| same("values", &course.values, &first.values))
        .and_then(|()| same("bytes sent", &course.sent, &first.sent));
    end.map_err(|text| Difference { call, text })
}

#[cfg(test)]
mod tests {
    use super::*;
    use reference::outbox::MIN_OUTBOX;

    /// A module without accessibles.
    const TABLE: &[u8] = b"ND\x01e\x01dMO\x01m\x01dEN";

    fn piece(bytes: &[u8]) -> Call {
        Call::Piece {
            client: 1,
            values_len: MIN_VALUES,
            outbox_len: MIN_OUTBOX,
            time: 7,
            bytes: bytes.to_vec(),
        }
    }

    /// Client 1 open, with a line begun.
    fn begun() -> Sides {
        let (values_len, time) = (MIN_VALUES, 5);
        let start = Call::Start { values_len, time };
        let open = Call::Open {
            client: 1,
            values_len,
            time,
        };
        let mut sides = Sides::over(TABLE);
        for call in [start, open, piece(b"pi")] {
            let answer = sides.call(&call).expect("both sides agree");
            assert!(answer.is_accepted());
        }
        sides
    }

    /// What is told of the next call, up to the numbers that differ.
    fn told(mut sides: Sides, call: &Call) -> String {
        let told = sides.call(call).expect_err("a side was altered");
        told.lines().next().unwrap_or_default().to_string()
    }

    #[test]
    fn a_byte_parked_in_another_clients_place_is_told() {
        for (place, expected) in [
            (5 * 1_024 + 7, "line's place of client 5, byte 7"),
            (1_024 + 2, "line's place of client 1, byte 2"),
            (8_191, "line's place of client 7, byte 1023"),
            (0, "line's place of client 0, byte 0"),
        ] {
            let mut sides = begun();
            sides.library.state.clients.lines[place] = b'x';
            assert_eq!(told(sides, &piece(b"\n")), expected);
        }
    }

    #[test]
    fn other_numbers_that_no_call_looks_at_are_told() {
        let next = piece(b"ng\n");
        let mut sides = begun();
        sides.library.state.clients.open[1] = 5;
        assert_eq!(told(sides, &next), "open flag of client 1");
        let mut sides = begun();
        sides.library.state.settings.length[63] = 257;
        assert_eq!(told(sides, &next), "stored length of parameter 63");
        let mut sides = begun();
        sides.library.state.settings.time[0] = 6;
        assert_eq!(told(sides, &next), "time of parameter 0");
    }
}
