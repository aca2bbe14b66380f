//! Prints where the structs of this crate have their fields, then what a few
//! calls answer, field by field. `tests/layout.c` prints the same as C sees
//! it.

use jihfasul::state::{CLIENTS, LINE};
use jihfasul::{call, version, Counts, Done, Listed, Row, Shown, State, INDEX, OUTBOX, VALUES};
use std::mem::{offset_of, size_of};

/// One module with two parameters, both bool: "p", true, and "q", false.
const TABLE: &[u8] =
    b"ND\x01e\x01dMO\x01m\x01dPA\x01p\x01d\0\x03\0\x04truePA\x01q\x01d\0\x03\0\x05falseEN";

fn print_layout() {
    println!(
        "version {}, of the library {}",
        version::VERSION,
        version::version()
    );
    println!(
        "layout {}, of the library {}",
        version::STATE_LAYOUT,
        version::state_layout()
    );
    println!("stack of {} bytes", call::STACK);
    println!("state of {} bytes", size_of::<State>());
    println!("state clients at {}", offset_of!(State, clients));
    println!("state clients.open at {}", offset_of!(State, clients.open));
    println!(
        "state clients.overlong at {}",
        offset_of!(State, clients.overlong)
    );
    println!(
        "state clients.active at {}",
        offset_of!(State, clients.active)
    );
    println!(
        "state clients.length at {}",
        offset_of!(State, clients.length)
    );
    println!(
        "state clients.lines at {}",
        offset_of!(State, clients.lines)
    );
    println!("state settings at {}", offset_of!(State, settings));
    println!(
        "state settings.length at {}",
        offset_of!(State, settings.length)
    );
    println!(
        "state settings.error at {}",
        offset_of!(State, settings.error)
    );
    println!(
        "state settings.time at {}",
        offset_of!(State, settings.time)
    );
    println!("state counts at {}", offset_of!(State, counts));
    print_counts_layout();
    print_answers_layout();
}

fn print_counts_layout() {
    println!("counts of {} bytes", size_of::<Counts>());
    println!("counts lines at {}", offset_of!(Counts, lines));
    println!("counts errors at {}", offset_of!(Counts, errors));
    println!("counts updates at {}", offset_of!(Counts, updates));
}

fn print_answers_layout() {
    println!("done of {} bytes", size_of::<Done>());
    println!("done number at {}", offset_of!(Done, number));
    println!("done used at {}", offset_of!(Done, used));
    println!("done written at {}", offset_of!(Done, written));
    println!("done steps at {}", offset_of!(Done, steps));
    println!("done state at {}", offset_of!(Done, state));
    println!("reading_row of {} bytes", size_of::<Row>());
    println!("reading_row parameter at {}", offset_of!(Row, parameter));
    println!("reading_row time at {}", offset_of!(Row, time));
    println!("reading_row offset at {}", offset_of!(Row, offset));
    println!("reading_row length at {}", offset_of!(Row, length));
    println!("listed of {} bytes", size_of::<Listed>());
    println!("listed number at {}", offset_of!(Listed, number));
    println!("listed taken at {}", offset_of!(Listed, taken));
    println!("listed written at {}", offset_of!(Listed, written));
    println!("listed steps at {}", offset_of!(Listed, steps));
    println!("listed state at {}", offset_of!(Listed, state));
    println!("shown of {} bytes", size_of::<Shown>());
    println!("shown number at {}", offset_of!(Shown, number));
    println!("shown stored at {}", offset_of!(Shown, stored));
    println!("shown error at {}", offset_of!(Shown, error));
    println!("shown from at {}", offset_of!(Shown, from));
    println!("shown size at {}", offset_of!(Shown, size));
    println!("shown time at {}", offset_of!(Shown, time));
}

/// The 32-bit FNV-1a hash of a state's bytes.
fn digest(state: &State) -> u32 {
    // A state has no padding: its size is the sum of its parts.
    let bytes: &[u8; size_of::<State>()] = unsafe { &*std::ptr::from_ref(state).cast() };
    let step = |hash: u32, byte: &u8| (hash ^ u32::from(*byte)).wrapping_mul(16_777_619);
    bytes.iter().fold(2_166_136_261, step)
}

fn print_state(state: &State) {
    let clients = &state.clients;
    for c in 0..CLIENTS {
        let line = &clients.lines[LINE * c..][..usize::from(clients.length[c])];
        println!(
            "client {c}: open {}, overlong {}, active {}, line \"{}\"",
            u8::from(clients.open[c] != 0),
            u8::from(clients.overlong[c] != 0),
            clients.active[c],
            String::from_utf8_lossy(line)
        );
    }
    for p in 0..2 {
        let settings = &state.settings;
        let (length, error, time) = (settings.length[p], settings.error[p], settings.time[p]);
        println!("parameter {p}: length {length}, error {error}, time {time}");
    }
    for (c, counts) in state.counts.iter().enumerate() {
        let Counts {
            lines,
            errors,
            updates,
        } = counts;
        println!("counts {c}: lines {lines}, errors {errors}, updates {updates}");
    }
}

struct Host {
    values: Vec<u8>,
    outbox: Vec<u8>,
    index: Vec<u8>,
    state: State,
}

impl Host {
    fn keep(&mut self, done: Done) {
        let Done {
            number,
            used,
            written,
            steps,
            state,
        } = done;
        self.state = state;
        println!("number {number}, used {used}, written {written}, steps {steps}");
        println!("digest {}", digest(&state));
    }

    fn open(&mut self, client: u64) {
        let done = call::open(TABLE, &self.values, &self.state, client, 500, &self.index);
        self.keep(done);
    }

    fn piece(&mut self, client: u64, bytes: &[u8]) {
        let (values, outbox) = (&mut self.values, &mut self.outbox);
        let (state, index) = (&self.state, &self.index);
        let done = call::piece(TABLE, values, outbox, state, client, 600, bytes, index);
        self.keep(done);
    }

    fn reading(&mut self, time: u64, text: &[u8]) {
        let (values, outbox) = (&mut self.values, &mut self.outbox);
        let (state, index) = (&self.state, &self.index);
        let done = call::reading(TABLE, values, outbox, state, 1, time, text, index);
        self.keep(done);
    }

    fn unreadable(&mut self, time: u64, class: u64) {
        let (values, outbox) = (&self.values, &mut self.outbox);
        let (state, index) = (&self.state, &self.index);
        let done = call::unreadable(TABLE, values, outbox, state, 0, time, class, index);
        self.keep(done);
    }

    fn close(&mut self, client: u64) {
        let done = call::close(TABLE, &self.values, &self.state, client, 800, &self.index);
        self.keep(done);
    }

    fn list(&mut self, rows: &[Row]) {
        let (values, outbox) = (&mut self.values, &mut self.outbox);
        let (state, index) = (&self.state, &self.index);
        let listed = call::readings(TABLE, values, outbox, state, rows, b"truefalse", index);
        let Listed {
            number,
            taken,
            written,
            steps,
            state,
        } = listed;
        self.state = state;
        println!("number {number}, taken {taken}, written {written}, steps {steps}");
        println!("digest {}", digest(&state));
    }

    fn value(&self, parameter: u64) {
        let Shown {
            number,
            stored,
            error,
            from,
            size,
            time,
        } = call::value(TABLE, &self.values, &self.state, parameter);
        println!("number {number}");
        if number == 0 {
            println!("stored {stored}, error {error}, from {from}, size {size}, time {time}");
        }
    }
}

fn main() {
    let mut host = Host {
        values: vec![0; VALUES],
        outbox: vec![0; OUTBOX],
        index: Vec::new(),
        state: State::NOTHING,
    };
    print_layout();
    host.keep(call::start(TABLE, &host.values, 5));
    for client in [3, 6, 7] {
        host.open(client);
    }
    host.piece(3, b"activate\nabc");
    host.piece(3, b"abc");
    host.piece(6, &[b'x'; 1_025]);
    host.piece(7, b"x\n");
    host.piece(7, b"_count\n");
    host.reading(777, b"true");
    host.reading(778, b"1");
    host.close(7);
    print_state(&host.state);
    for parameter in 0..3 {
        host.value(parameter);
    }
    host.unreadable(901, 3);
    host.unreadable(902, 259);
    print_state(&host.state);
    host.value(0);
    host.piece(3, b"\n");
    host.piece(3, b"read m:q\n");
    let mut index = vec![0; INDEX];
    println!("index {}", call::index(TABLE, &mut index[..INDEX - 1]));
    println!("index {}", call::index(TABLE, &mut index));
    host.index = index.clone();
    host.piece(3, b"read m:q\n");
    host.index = vec![0; 1];
    host.piece(3, b"read m:q\n");
    print_lists(&mut host);
}

fn print_lists(host: &mut Host) {
    let row = |(parameter, time, offset, length)| Row {
        parameter,
        time,
        offset,
        length,
    };
    let mut rows = [(0, 0, 0, 0); 10].map(row);
    rows[..3].copy_from_slice(&[(1, 950, 0, 4), (0, 951, 4, 5), (2, 952, 0, 4)].map(row));
    host.list(&rows[..2]);
    host.index = Vec::new();
    host.list(&rows);
    host.list(&rows[..3]);
    host.list(&[]);
    host.value(0);
    host.value(1);
}
