//! Which library is linked: rule C-25.

/// The version of the library that this crate is written for: 10203 is 1.2.3.
pub const VERSION: u32 = 10_000;

/// The layout of [`State`](crate::State): a number to keep beside a state that
/// is stored, which can be handed to any library of the same.
pub const STATE_LAYOUT: u32 = 1;

extern "C" {
    fn jihfasul_version() -> u32;
    fn jihfasul_state_layout() -> u32;
}

/// The linked library's version.
pub fn version() -> u32 {
    // Safety: it takes nothing and always returns.
    unsafe { jihfasul_version() }
}

/// The layout of the linked library's state.
pub fn state_layout() -> u32 {
    // Safety: as above.
    unsafe { jihfasul_state_layout() }
}
