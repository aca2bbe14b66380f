//! Names and texts.

const NAME: usize = 63;

/// Why a name is none: "1 to 63 letters, digits, underscores, no leading
/// digit".
pub(super) fn name_fault(name: &[u8]) -> Option<String> {
    let told = String::from_utf8_lossy(name);
    let is_good = |byte: &u8| byte.is_ascii_alphanumeric() || *byte == b'_';
    if name.is_empty() || name.len() > NAME {
        let length = name.len();
        return Some(format!(
            "a name has 1 to 63 characters; this one has {length}"
        ));
    }
    if let Some(place) = name.iter().position(|byte| !is_good(byte)) {
        let bad = character(&name[place..]);
        return Some(format!(
            "a name has letters, digits and underscores only; {told} has {bad}"
        ));
    }
    let leads = name[0].is_ascii_digit();
    leads.then(|| format!("a name doesn't begin with a digit, as {told} does"))
}

/// Where a text is none, and why: "bytes 32 to 126 without `\"` and `\\`".
pub(super) fn text_fault(text: &[u8]) -> Option<(usize, String)> {
    let is_good = |byte: &u8| (32..=126).contains(byte) && !b"\"\\".contains(byte);
    let place = text.iter().position(|byte| !is_good(byte))?;
    let bad = character(&text[place..]);
    let rule = format!("a text has plain ASCII characters only, without \" and \\; here is {bad}");
    Some((place, rule))
}

/// The character that some bytes begin with, or the byte's number.
pub(super) fn character(bytes: &[u8]) -> String {
    let front = &bytes[..bytes.len().min(4)];
    let valid = match std::str::from_utf8(front) {
        Ok(text) => text,
        Err(error) => std::str::from_utf8(&front[..error.valid_up_to()]).unwrap_or_default(),
    };
    match valid.chars().next() {
        Some(character) if !character.is_control() => character.to_string(),
        _ => format!("the byte {}", bytes.first().copied().unwrap_or_default()),
    }
}
