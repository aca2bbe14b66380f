//! Names and texts.

/// The longest name.
pub const MAX_NAME: usize = 63;

/// One to 63 letters, digits and underscores, the first one no digit.
pub fn is_good_name(name: &[u8]) -> bool {
    let in_alphabet = |byte: &u8| byte.is_ascii_alphanumeric() || *byte == b'_';
    (1..=MAX_NAME).contains(&name.len())
        && name.iter().all(in_alphabet)
        && !name[0].is_ascii_digit()
}

/// Whether a scope's names are good ones and stay different when lowercased.
pub fn are_good_names<'a>(names: impl IntoIterator<Item = &'a [u8]>) -> bool {
    let mut seen = Vec::new();
    names.into_iter().all(|name| {
        let lowercased = name.to_ascii_lowercase();
        let fresh = !seen.contains(&lowercased);
        seen.push(lowercased);
        fresh && is_good_name(name)
    })
}

/// Bytes 32 to 126 without quote and backslash; a text may be empty.
pub fn is_good_text(text: &[u8]) -> bool {
    text.iter()
        .all(|byte| (32..=126).contains(byte) && !matches!(byte, b'"' | b'\\'))
}
