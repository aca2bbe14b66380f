//! How deep the stack of a call gets: the call is made on a stack of its own,
//! filled with a pattern, and then it shows how far the pattern is gone.

use crate::library::{row, Library};
use jihfasul::call::{self, STACK};
use jihfasul::{Done, State, INDEX};
use reference::generate::{calls, racks};
use reference::history::Call;
use reference::node::MIN_VALUES;
use reference::operation::{Operation, VALUES_AREA};
use std::arch::asm;
use std::mem::size_of;
use std::process::ExitCode;

/// Far more than a call takes.
const LENGTH: usize = 1 << 20;
const PATTERN: u8 = 0xa5;
const PAGE: usize = 4_096;

/// The histories that are run.
const SEED: u64 = 1;
const COUNT: u64 = 200;
/// The calls of a history with lists.
const CALLS: usize = 20;

struct Stack {
    bytes: Vec<u8>,
}

/// Runs a closure at the end of a jump to another stack.
extern "C" fn run<F: FnMut()>(act: &mut F) {
    act();
}

impl Stack {
    fn new() -> Stack {
        Stack {
            bytes: vec![PATTERN; LENGTH],
        }
    }

    /// How many bytes of stack something takes.
    fn depth<F: FnMut()>(&mut self, mut act: F) -> usize {
        let end = self.bytes.as_mut_ptr_range().end;
        let top = end as usize & !15;
        let run: extern "C" fn(&mut F) = run::<F>;
        // The stack pointer is put at the end of memory that is this
        // struct's own, and back after the call; a panic in there ends the
        // program.
        unsafe {
            asm!(
                "mov r12, rsp",
                "mov rsp, {top}",
                "call {run}",
                "mov rsp, r12",
                top = in(reg) top,
                run = in(reg) run,
                in("rdi") &mut act,
                out("r12") _,
                clobber_abi("C"),
            );
        }
        self.refill()
    }

    /// How many bytes from the first that was written to the end; they get
    /// their pattern again.
    fn refill(&mut self) -> usize {
        let mut pages = self.bytes.chunks(PAGE);
        let page = pages.position(|page| page != [PATTERN; PAGE]).unwrap_or(0) * PAGE;
        let within = self.bytes[page..].iter().position(|byte| *byte != PATTERN);
        let untouched = within.map_or(LENGTH, |within| page + within);
        self.bytes[untouched..].fill(PATTERN);
        LENGTH - untouched
    }
}

/// The deepest stack of each kind of call.
#[derive(Default)]
struct Deepest {
    start: usize,
    open: usize,
    close: usize,
    piece: usize,
    reading: usize,
    unreadable: usize,
    readings: usize,
    value: usize,
    index: usize,
}

impl Deepest {
    fn most(&self) -> usize {
        let kept = self.start.max(self.open).max(self.close).max(self.value);
        let sent = self.piece.max(self.reading).max(self.unreadable);
        kept.max(sent).max(self.readings).max(self.index)
    }

    fn of(&mut self, call: &Call) -> &mut usize {
        match call {
            Call::Start { .. } => &mut self.start,
            Call::Open { .. } => &mut self.open,
            Call::Close { .. } => &mut self.close,
            Call::Piece { .. } => &mut self.piece,
            Call::Reading { .. } => &mut self.reading,
            Call::Unreadable { .. } => &mut self.unreadable,
            Call::Readings { .. } => &mut self.readings,
            Call::Lend { .. } => unreachable!("lending is no call"),
        }
    }
}

/// Over the histories.
fn deepest() -> Deepest {
    let mut stack = Stack::new();
    let mut deepest = Deepest::default();
    let mut library = Library::new(&[]);
    library.values.set(0, &[0; VALUES_AREA]);
    let lists = (SEED..SEED + COUNT).flat_map(|seed| racks::operations(seed, CALLS));
    let operations = calls::operations(SEED, COUNT).into_iter();
    for operation in operations.chain(calls::lists()).chain(lists) {
        match operation {
            Operation::Table(bytes) => {
                library.table = bytes;
                let mut index = [0; INDEX];
                let table = &library.table;
                let depth = stack.depth(|| _ = call::index(table, &mut index));
                deepest.index = depth.max(deepest.index);
            }
            Operation::Call(Call::Lend { index }) => library.lend(&index),
            Operation::Poke(poke) => library.poke(&poke),
            Operation::Call(call) => measure(&mut stack, &mut deepest, &mut library, &call),
            Operation::Show(_) | Operation::Note(_) => {}
        }
    }
    deepest
}

/// Prints it; a failure where it is more than callers are told.
pub fn print() -> ExitCode {
    let deepest = deepest();
    let (state, done) = (size_of::<State>(), size_of::<Done>());
    println!("a state has {state} bytes, an answer {done}");
    println!("deepest stack of a call, with the state handed in and the answer:");
    println!("start      {:6} bytes", deepest.start);
    println!("open       {:6} bytes", deepest.open);
    println!("close      {:6} bytes", deepest.close);
    println!("piece      {:6} bytes", deepest.piece);
    println!("reading    {:6} bytes", deepest.reading);
    println!("unreadable {:6} bytes", deepest.unreadable);
    println!("readings   {:6} bytes", deepest.readings);
    println!("value      {:6} bytes", deepest.value);
    println!("index      {:6} bytes", deepest.index);
    let kept = deepest.most() <= STACK;
    println!(
        "stack: {} passed, {} failed",
        u8::from(kept),
        u8::from(!kept)
    );
    ExitCode::from(u8::from(!kept))
}

fn measure(stack: &mut Stack, deepest: &mut Deepest, library: &mut Library, call: &Call) {
    let mut state = library.state;
    let depth = match call {
        Call::Readings {
            values_len,
            outbox_len,
            rows,
            texts,
        } => {
            let rows: Vec<_> = rows.iter().map(row).collect();
            stack.depth(|| state = library.listed(*values_len, *outbox_len, &rows, texts).state)
        }
        _ => stack.depth(|| state = library.single(call).state),
    };
    library.state = state;
    let most = deepest.of(call);
    *most = depth.max(*most);
    let depth = stack.depth(|| drop(library.value(MIN_VALUES, 0)));
    deepest.value = depth.max(deepest.value);
}

#[cfg(test)]
mod tests {
    use super::*;
    use std::hint::black_box;

    #[inline(never)]
    fn fill(count: u8) -> u32 {
        let array = black_box([count; 5_000]);
        array.iter().map(|byte| u32::from(*byte)).sum()
    }

    #[test]
    fn an_array_on_the_stack_is_seen() {
        let mut stack = Stack::new();
        let mut sum = 0;
        let depth = stack.depth(|| sum = fill(1));
        assert_eq!(sum, 5_000);
        assert!((5_000..20_000).contains(&depth), "{depth}");
        assert!(stack.depth(|| sum = 1) < 1_000);
    }
}
