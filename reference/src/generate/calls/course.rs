//! Operations put together one by one, over a state of their own that shows
//! what a change takes away.

use crate::generate::free;
use crate::history::{Call, History};
use crate::kept::Kept;
use crate::node::MIN_VALUES;
use crate::operation::{Operation, Poke, VALUES_AREA};
use crate::outbox::MIN_OUTBOX;
use crate::random::Random;
use crate::table::Table;

/// The n-th call comes at n seconds and is lent areas just long enough.
pub(super) struct Course {
    operations: Vec<Operation>,
    table: Vec<u8>,
    index: Vec<u8>,
    kept: Kept,
    time: u64,
}

impl Course {
    pub(super) fn new() -> Course {
        Course {
            operations: Vec::new(),
            table: Vec::new(),
            index: Vec::new(),
            kept: Kept::new(VALUES_AREA),
            time: 0,
        }
    }

    pub(super) fn operations(self) -> Vec<Operation> {
        self.operations
    }

    pub(super) fn kept(&self) -> &Kept {
        &self.kept
    }

    pub(super) fn is_fit(&self) -> bool {
        self.kept.is_fit(&self.table)
    }

    /// Begins a part that has a name of its own; the time begins anew.
    pub(super) fn named(&mut self, name: &str) {
        self.operations.push(Operation::Note(name.to_string()));
        self.time = 0;
    }

    pub(super) fn table(&mut self, bytes: &[u8]) {
        self.operations.push(Operation::Table(bytes.to_vec()));
        self.table = bytes.to_vec();
    }

    /// A named part over a table, started.
    pub(super) fn started(&mut self, name: &str, table: &[u8]) {
        self.named(name);
        self.table(table);
        self.start();
    }

    pub(super) fn call(&mut self, call: Call) {
        match &call {
            Call::Lend { index } => self.index = index.clone(),
            _ => {
                self.kept.call(&self.table, &self.index, &call);
            }
        }
        self.operations.push(Operation::Call(call));
    }

    /// The calls from here on are lent an index; none has no bytes.
    pub(super) fn lend(&mut self, index: &[u8]) {
        self.call(Call::Lend {
            index: index.to_vec(),
        });
    }

    pub(super) fn poke(&mut self, poke: Poke) {
        poke.apply(&mut self.kept);
        self.operations.push(Operation::Poke(poke));
    }

    /// Makes changes, does something, and takes the changes back.
    pub(super) fn poked_for(&mut self, pokes: &[Poke], act: impl FnOnce(&mut Course)) {
        let mut undoing = Vec::new();
        for poke in pokes {
            undoing.push(poke.undoing(&self.kept));
            self.poke(poke.clone());
        }
        act(self);
        for poke in undoing.into_iter().rev() {
            self.poke(poke);
        }
    }

    /// Changes what no call looks at, now and then.
    pub(super) fn scribble(&mut self, random: &mut Random) {
        for poke in free::some(random, &self.kept, self.parameters()) {
            self.poke(poke);
        }
    }

    /// How many parameters there are; a faulty table has none.
    fn parameters(&self) -> usize {
        Table::judge(&self.table).map_or(0, |table| table.parameters().len())
    }

    /// Prints the state, over a good table with its parameters.
    pub(super) fn show(&mut self) {
        self.operations.push(Operation::Show(self.parameters()));
    }

    /// A history that was made elsewhere.
    pub(super) fn history(&mut self, name: &str, history: &History) {
        self.named(name);
        self.table(&history.table);
        for call in &history.calls {
            self.call(call.clone());
        }
        self.lend(&[]);
        self.show();
    }

    pub(super) fn now(&mut self) -> u64 {
        self.time += 1_000;
        self.time
    }

    pub(super) fn start(&mut self) {
        let time = self.now();
        self.call(Call::Start {
            values_len: MIN_VALUES,
            time,
        });
    }

    pub(super) fn open(&mut self, client: u64) {
        let time = self.now();
        self.call(Call::Open {
            client,
            values_len: MIN_VALUES,
            time,
        });
    }

    pub(super) fn close(&mut self, client: u64) {
        let time = self.now();
        self.call(Call::Close {
            client,
            values_len: MIN_VALUES,
            time,
        });
    }

    pub(super) fn piece(&mut self, client: u64, bytes: impl AsRef<[u8]>) {
        let time = self.now();
        self.piece_at(client, time, bytes);
    }

    pub(super) fn piece_at(&mut self, client: u64, time: u64, bytes: impl AsRef<[u8]>) {
        self.call(Call::Piece {
            client,
            values_len: MIN_VALUES,
            outbox_len: MIN_OUTBOX,
            time,
            bytes: bytes.as_ref().to_vec(),
        });
    }

    /// A piece that is one whole line; its line feed is added here.
    pub(super) fn line(&mut self, client: u64, line: &str) {
        self.piece(client, format!("{line}\n"));
    }

    pub(super) fn lines(&mut self, client: u64, lines: &[&str]) {
        for line in lines {
            self.line(client, line);
        }
    }

    pub(super) fn unreadable(&mut self, parameter: u64, class: u64) {
        let time = self.now();
        self.call(Call::Unreadable {
            parameter,
            values_len: MIN_VALUES,
            outbox_len: MIN_OUTBOX,
            time,
            class,
        });
    }

    pub(super) fn reading(&mut self, parameter: u64, text: &str) {
        let time = self.now();
        self.call(Call::Reading {
            parameter,
            values_len: MIN_VALUES,
            outbox_len: MIN_OUTBOX,
            time,
            text: text.as_bytes().to_vec(),
        });
    }
}
