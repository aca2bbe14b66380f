//! Operations through the library and over the reference program's kept state:
//! calls, and changes of the state between them, past all rules.

use crate::bytes::same_kept;
use crate::difference::{same, same_answer, Counts};
use crate::library::{readable, Library, Shown};
use reference::history::Call;
use reference::kept::{Kept, UNFIT};
use reference::node::MIN_VALUES;
use reference::operation::{Operation, VALUES_AREA};
use reference::refusal::Refusal;
use reference::table::Table;

struct Pair {
    library: Library,
    kept: Kept,
    /// What calls are lent as an index.
    index: Vec<u8>,
    /// How many parameters the table has, or its number.
    parameters: Result<usize, Refusal>,
    calls: usize,
}

/// Runs the operations up to the first difference. Gives how many named parts
/// agreed, and in which one the difference is, at which of its calls, counted
/// from 1.
pub fn run(operations: &[Operation], counts: &mut Counts) -> (usize, Option<String>) {
    let mut pair = Pair::new();
    let (mut name, mut parts, mut before) = ("", 0, 0);
    for operation in operations {
        if let Operation::Note(note) = operation {
            (name, parts, before) = (note, parts + 1, pair.calls);
        }
        if let Err(text) = pair.operate(operation, counts) {
            let call = pair.calls - before;
            return (parts - 1, Some(format!("{name}, call {call}: {text}")));
        }
    }
    (parts, None)
}

impl Pair {
    fn new() -> Pair {
        let mut library = Library::new(&[]);
        let kept = Kept::new(VALUES_AREA);
        library.values.set(0, &kept.values);
        Pair {
            library,
            kept,
            index: Vec::new(),
            parameters: Err(Refusal::Layout),
            calls: 0,
        }
    }

    fn operate(&mut self, operation: &Operation, counts: &mut Counts) -> Result<(), String> {
        match operation {
            Operation::Table(bytes) => {
                let judged = Table::judge(bytes);
                self.parameters = judged.map(|table| table.parameters().len());
                self.library.table.clone_from(bytes);
                return self.library.fill();
            }
            Operation::Call(Call::Lend { index }) => {
                self.index.clone_from(index);
                self.library.lend(index);
            }
            Operation::Poke(poke) => {
                poke.apply(&mut self.kept);
                self.library.poke(poke);
            }
            Operation::Call(call) => return self.call(call, counts),
            Operation::Show(_) | Operation::Note(_) => {}
        }
        Ok(())
    }

    fn call(&mut self, call: &Call, counts: &mut Counts) -> Result<(), String> {
        self.calls += 1;
        let due = self.kept.call(&self.library.table, &self.index, call);
        let found = self.library.call(call)?;
        same_answer(call, &found, &due)?;
        counts.add(&found);
        same_kept(&mut self.library, &self.kept)?;
        self.value()
    }

    /// After each call the value of another parameter is asked for.
    fn value(&mut self) -> Result<(), String> {
        let count = self.parameters.unwrap_or(0);
        let parameter = self.calls % (count + 1);
        let found = self.library.value(MIN_VALUES, parameter as u64);
        let due = match self.parameters {
            Err(refusal) => Shown::refused(refusal.number()),
            Ok(_) if !self.kept.is_fit(&self.library.table) => Shown::refused(UNFIT),
            Ok(_) if parameter == count => Shown::refused(Refusal::NoSuchParameter.number()),
            Ok(_) => self.shown(parameter),
        };
        same("value", &found, &due)
    }

    fn shown(&self, parameter: usize) -> Shown {
        let setting = self.kept.settings[parameter];
        if setting.error != 0 {
            return Shown::in_error(setting.error, setting.time);
        }
        let initial = || {
            let table = Table::judge(&self.library.table).expect("a good table");
            readable(table.parameters()[parameter].initial)
        };
        let stored = &self.kept.values[256 * parameter..][..usize::from(setting.length)];
        let set = setting.length != 0;
        Shown {
            number: 0,
            error: 0,
            text: if set { readable(stored) } else { initial() },
            time: setting.time,
            set,
        }
    }
}

#[cfg(test)]
mod tests {
    use super::*;

    #[test]
    fn a_byte_parked_between_operations_is_told() {
        let (values_len, time) = (MIN_VALUES, 5);
        let table = b"ND\x01e\x01dMO\x01m\x01dEN".to_vec();
        let start = Call::Start { values_len, time };
        let open = Call::Open {
            client: 1,
            values_len,
            time,
        };
        let (mut pair, mut counts) = (Pair::new(), Counts::default());
        for operation in [Operation::Table(table), Operation::Call(start)] {
            assert_eq!(pair.operate(&operation, &mut counts), Ok(()));
        }
        pair.library.state.clients.lines[5 * 1_024 + 7] = b'x';
        let told = pair.operate(&Operation::Call(open), &mut counts);
        let expected = "line's place of client 5, byte 7\n  found 120\n  due   0";
        assert_eq!(told, Err(expected.to_string()));
    }
}
