//! What a host keeps between calls, and what calls answer, as they lie in
//! memory on both sides of the boundary. The header `include/jihfasul.h` says
//! the same in C; `tests/library` compares the two and the library.

pub const CLIENTS: usize = 8;
pub const PARAMETERS: usize = 64;
/// The bytes of a line before its line feed.
pub const LINE: usize = 1_024;

/// Of each client: whether it is open and inside an overlong line (0: no,
/// anything else: yes), a bit for each module that it has active, the lowest
/// for the first, and its unfinished line.
#[repr(C)]
#[derive(Clone, Copy, Debug, PartialEq, Eq)]
pub struct Clients {
    pub open: [u8; CLIENTS],
    pub overlong: [u8; CLIENTS],
    pub active: [u16; CLIENTS],
    pub length: [u16; CLIENTS],
    /// 1,024 bytes for each client, of which the first `length` count.
    pub lines: [u8; CLIENTS * LINE],
}

/// Of each parameter: the length of its stored value, 0 if it was never set;
/// the class of the error in the value's place, 0 if there is none; and the
/// time of the value or of the error. Places past the last parameter don't
/// count.
#[repr(C)]
#[derive(Clone, Copy, Debug, PartialEq, Eq)]
pub struct Settings {
    pub length: [u16; PARAMETERS],
    pub error: [u8; PARAMETERS],
    pub time: [u64; PARAMETERS],
}

/// Of one client, since its open: the lines that it completed, the errors
/// replied to it and the updates sent to it. Each stops at its greatest number;
/// a close keeps them. A client asks for its own by the line `_count`.
#[repr(C)]
#[derive(Clone, Copy, Debug, Default, PartialEq, Eq)]
pub struct Counts {
    pub lines: u32,
    pub errors: u32,
    pub updates: u32,
}

/// What is kept between calls, besides the values area. Any bytes are a state;
/// a call over an unfit one is refused with number 9.
#[repr(C)]
#[derive(Clone, Copy, Debug, PartialEq, Eq)]
pub struct State {
    pub clients: Clients,
    pub settings: Settings,
    pub counts: [Counts; CLIENTS],
}

impl State {
    /// No client open and every number 0: what a refused start answers.
    pub const NOTHING: State = State {
        clients: Clients {
            open: [0; CLIENTS],
            overlong: [0; CLIENTS],
            active: [0; CLIENTS],
            length: [0; CLIENTS],
            lines: [0; CLIENTS * LINE],
        },
        settings: Settings {
            length: [0; PARAMETERS],
            error: [0; PARAMETERS],
            time: [0; PARAMETERS],
        },
        counts: [Counts {
            lines: 0,
            errors: 0,
            updates: 0,
        }; CLIENTS],
    };
}

/// A reading of a list: the parameter's number, the time, and where its text
/// lies in the buffer beside the list.
#[repr(C)]
#[derive(Clone, Copy, Debug, PartialEq, Eq)]
pub struct Row {
    pub parameter: u64,
    pub time: u64,
    pub offset: u64,
    pub length: u64,
}

/// What a list answers: its number, or that of the first reading that is
/// refused, how many readings were taken, how many bytes of the outbox they
/// wrote, the steps of a search, which are 0, and the next state.
#[repr(C)]
#[derive(Clone, Copy, Debug, PartialEq, Eq)]
pub struct Listed {
    pub number: u8,
    pub taken: usize,
    pub written: usize,
    pub steps: usize,
    pub state: State,
}

/// What a call answers: its number, how many of a piece's bytes it used, how
/// many bytes of the outbox it wrote, how many steps the search for a line's
/// accessible took, and the next state.
#[repr(C)]
#[derive(Clone, Copy, Debug, PartialEq, Eq)]
pub struct Done {
    pub number: u8,
    pub used: usize,
    pub written: usize,
    pub steps: usize,
    pub state: State,
}

/// Where the value lies that a parameter shows: in the table if `stored` is 0,
/// in the values area if it is 1. If the parameter can't be read, `error` is
/// the class and not 0, and there is no value: its size is 0.
#[repr(C)]
#[derive(Clone, Copy, Debug, PartialEq, Eq)]
pub struct Shown {
    pub number: u8,
    pub stored: u8,
    pub error: u8,
    pub from: usize,
    pub size: usize,
    pub time: u64,
}
