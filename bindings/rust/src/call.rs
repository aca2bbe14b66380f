//! The calls as the library has them: everything is lent, the state is handed
//! in and out. They ask nothing of their arguments: whatever is wrong is
//! refused by a number. [`Node`](crate::Node) keeps the parts for its user.

use crate::state::{Done, Listed, Row, Shown, State};

/// The bytes of stack, at most, that a call takes with the state handed in and
/// the answer.
pub const STACK: usize = 65_536;

/// The library's functions. A slice passes as a pointer and a length.
mod library {
    use super::{Done, Listed, Row, Shown, State};

    extern "C" {
        pub fn jihfasul_start(
            table: *const u8,
            table_length: usize,
            values: *const u8,
            values_length: usize,
            time: u64,
        ) -> Done;

        pub fn jihfasul_index(
            table: *const u8,
            table_length: usize,
            index: *mut u8,
            index_length: usize,
        ) -> u8;

        pub fn jihfasul_open(
            table: *const u8,
            table_length: usize,
            values: *const u8,
            values_length: usize,
            state: State,
            client: u64,
            time: u64,
            index: *const u8,
            index_length: usize,
        ) -> Done;

        pub fn jihfasul_close(
            table: *const u8,
            table_length: usize,
            values: *const u8,
            values_length: usize,
            state: State,
            client: u64,
            time: u64,
            index: *const u8,
            index_length: usize,
        ) -> Done;

        pub fn jihfasul_piece(
            table: *const u8,
            table_length: usize,
            values: *mut u8,
            values_length: usize,
            outbox: *mut u8,
            outbox_length: usize,
            state: State,
            client: u64,
            time: u64,
            bytes: *const u8,
            bytes_length: usize,
            index: *const u8,
            index_length: usize,
        ) -> Done;

        pub fn jihfasul_reading(
            table: *const u8,
            table_length: usize,
            values: *mut u8,
            values_length: usize,
            outbox: *mut u8,
            outbox_length: usize,
            state: State,
            parameter: u64,
            time: u64,
            bytes: *const u8,
            bytes_length: usize,
            index: *const u8,
            index_length: usize,
        ) -> Done;

        pub fn jihfasul_unreadable(
            table: *const u8,
            table_length: usize,
            values: *const u8,
            values_length: usize,
            outbox: *mut u8,
            outbox_length: usize,
            state: State,
            parameter: u64,
            time: u64,
            class: u64,
            index: *const u8,
            index_length: usize,
        ) -> Done;

        pub fn jihfasul_readings(
            table: *const u8,
            table_length: usize,
            values: *mut u8,
            values_length: usize,
            outbox: *mut u8,
            outbox_length: usize,
            state: State,
            rows: *const Row,
            rows_count: usize,
            texts: *const u8,
            texts_length: usize,
            index: *const u8,
            index_length: usize,
        ) -> Listed;

        pub fn jihfasul_value(
            table: *const u8,
            table_length: usize,
            values: *const u8,
            values_length: usize,
            state: State,
            parameter: u64,
        ) -> Shown;
    }
}

// Safety of the calls below: each pointer and length are those of one slice, a
// slice that is written to is borrowed for that, and so none overlaps another.
// The library reads and writes within the slices, keeps no pointer, and always
// returns; that is proved of it for all arguments.

pub fn start(table: &[u8], values: &[u8], time: u64) -> Done {
    unsafe {
        library::jihfasul_start(
            table.as_ptr(),
            table.len(),
            values.as_ptr(),
            values.len(),
            time,
        )
    }
}

/// Fills the first 128 bytes of an index from a table; the number, 0 for
/// filled. Each call below but `value` may be lent one, or none with no bytes.
pub fn index(table: &[u8], index: &mut [u8]) -> u8 {
    unsafe { library::jihfasul_index(table.as_ptr(), table.len(), index.as_mut_ptr(), index.len()) }
}

pub fn open(
    table: &[u8],
    values: &[u8],
    state: &State,
    client: u64,
    time: u64,
    index: &[u8],
) -> Done {
    unsafe {
        library::jihfasul_open(
            table.as_ptr(),
            table.len(),
            values.as_ptr(),
            values.len(),
            *state,
            client,
            time,
            index.as_ptr(),
            index.len(),
        )
    }
}

pub fn close(
    table: &[u8],
    values: &[u8],
    state: &State,
    client: u64,
    time: u64,
    index: &[u8],
) -> Done {
    unsafe {
        library::jihfasul_close(
            table.as_ptr(),
            table.len(),
            values.as_ptr(),
            values.len(),
            *state,
            client,
            time,
            index.as_ptr(),
            index.len(),
        )
    }
}

/// Uses the bytes through the first line feed, or all where there is none.
pub fn piece(
    table: &[u8],
    values: &mut [u8],
    outbox: &mut [u8],
    state: &State,
    client: u64,
    time: u64,
    bytes: &[u8],
    index: &[u8],
) -> Done {
    unsafe {
        library::jihfasul_piece(
            table.as_ptr(),
            table.len(),
            values.as_mut_ptr(),
            values.len(),
            outbox.as_mut_ptr(),
            outbox.len(),
            *state,
            client,
            time,
            bytes.as_ptr(),
            bytes.len(),
            index.as_ptr(),
            index.len(),
        )
    }
}

pub fn reading(
    table: &[u8],
    values: &mut [u8],
    outbox: &mut [u8],
    state: &State,
    parameter: u64,
    time: u64,
    bytes: &[u8],
    index: &[u8],
) -> Done {
    unsafe {
        library::jihfasul_reading(
            table.as_ptr(),
            table.len(),
            values.as_mut_ptr(),
            values.len(),
            outbox.as_mut_ptr(),
            outbox.len(),
            *state,
            parameter,
            time,
            bytes.as_ptr(),
            bytes.len(),
            index.as_ptr(),
            index.len(),
        )
    }
}

/// The class is any number: one that is none of
/// [`SensorError`](crate::SensorError) is refused.
pub fn unreadable(
    table: &[u8],
    values: &[u8],
    outbox: &mut [u8],
    state: &State,
    parameter: u64,
    time: u64,
    class: u64,
    index: &[u8],
) -> Done {
    unsafe {
        library::jihfasul_unreadable(
            table.as_ptr(),
            table.len(),
            values.as_ptr(),
            values.len(),
            outbox.as_mut_ptr(),
            outbox.len(),
            *state,
            parameter,
            time,
            class,
            index.as_ptr(),
            index.len(),
        )
    }
}

/// Takes a list of at most nine readings, whose texts lie in a buffer. At the
/// first that is refused the call stops: those before it stand.
pub fn readings(
    table: &[u8],
    values: &mut [u8],
    outbox: &mut [u8],
    state: &State,
    rows: &[Row],
    texts: &[u8],
    index: &[u8],
) -> Listed {
    unsafe {
        library::jihfasul_readings(
            table.as_ptr(),
            table.len(),
            values.as_mut_ptr(),
            values.len(),
            outbox.as_mut_ptr(),
            outbox.len(),
            *state,
            rows.as_ptr(),
            rows.len(),
            texts.as_ptr(),
            texts.len(),
            index.as_ptr(),
            index.len(),
        )
    }
}

pub fn value(table: &[u8], values: &[u8], state: &State, parameter: u64) -> Shown {
    unsafe {
        library::jihfasul_value(
            table.as_ptr(),
            table.len(),
            values.as_ptr(),
            values.len(),
            *state,
            parameter,
        )
    }
}
