//! Base64 with padding, by RFC 4648, section 4.

const ALPHABET: &[u8; 64] = b"ABCDEFGHIJKLMNOPQRSTUVWXYZabcdefghijklmnopqrstuvwxyz0123456789+/";

/// The base64 of some bytes. The bits of a last group that is not whole are
/// filled up with zeros, its digits with padding signs.
pub fn encode(bytes: &[u8]) -> Vec<u8> {
    let mut text = Vec::new();
    for group in bytes.chunks(3) {
        let bits = (0..3).fold(0, |bits, at| {
            bits << 8 | usize::from(group.get(at).copied().unwrap_or(0))
        });
        for at in 0..4 {
            let digit = ALPHABET[bits >> (18 - 6 * at) & 63];
            text.push(if at <= group.len() { digit } else { b'=' });
        }
    }
    text
}

/// The bytes that a text is the base64 of. No two texts are that of the same
/// bytes, so a text that is not what its bytes are encoded as is none.
pub fn decode(text: &[u8]) -> Option<Vec<u8>> {
    let end = text.iter().rposition(|&byte| byte != b'=');
    let digits = &text[..end.map_or(0, |at| at + 1)];
    let (mut bytes, mut bits, mut count) = (Vec::new(), 0, 0);
    for byte in digits {
        bits = bits << 6 & 0x3FFF | ALPHABET.iter().position(|digit| digit == byte)?;
        count += 6;
        if count >= 8 {
            count -= 8;
            bytes.push((bits >> count) as u8);
        }
    }
    (encode(&bytes) == text).then_some(bytes)
}

#[cfg(test)]
mod tests {
    use super::*;

    #[test]
    fn the_vectors_of_rfc_4648() {
        let vectors = [
            ("", ""),
            ("f", "Zg=="),
            ("fo", "Zm8="),
            ("foo", "Zm9v"),
            ("foob", "Zm9vYg=="),
            ("fooba", "Zm9vYmE="),
            ("foobar", "Zm9vYmFy"),
        ];
        for (plain, coded) in vectors {
            assert_eq!(encode(plain.as_bytes()), coded.as_bytes());
            assert_eq!(decode(coded.as_bytes()), Some(plain.as_bytes().to_vec()));
        }
    }

    #[test]
    fn every_byte_and_every_digit() {
        let bytes: Vec<u8> = (0..=255).collect();
        assert_eq!(decode(&encode(&bytes)), Some(bytes));
        let digits = decode(ALPHABET).expect("sixteen whole groups");
        assert_eq!((digits.len(), digits[0], digits[47]), (48, 0, 0xBF));
        // 0xFB 0xEF 0xBE are the digits 62, 62, 62, 62.
        assert_eq!(encode(&[0xFB, 0xEF, 0xBE, 0xFF]), b"++++/w==");
    }

    #[test]
    fn what_is_no_base64() {
        let of_a_wrong_length = [
            "Z", "Zg", "Zg=", "Zm8", "Zg===", "Zm8==", "Zm9v=", "Zm9v====", "====", "=", "Z===",
            "Zm9vY",
        ];
        let with_padding_before_the_end = ["Zg==Zm9v", "Zm8=Zm8=", "Z=g=", "=Zm8"];
        let with_unused_bits_set = ["Zh==", "Zv==", "Zm9=", "Zm+=", "//==", "///="];
        let with_other_bytes = [
            "Zm-v",
            "Zm_v",
            "Zm 9",
            " Zm9v",
            "Zm9v\n",
            "Zm\\v",
            "Zm9@",
            "Zm9[",
            "Zm9`",
            "Zm9{",
            "Zm9.",
            "Zm9:",
            "Zm9,",
            "\\/\\/\\/",
        ];
        let texts = [
            &of_a_wrong_length[..],
            &with_padding_before_the_end,
            &with_unused_bits_set,
            &with_other_bytes,
        ];
        for text in texts.concat() {
            assert_eq!(decode(text.as_bytes()), None, "{text}");
        }
    }

    #[test]
    fn of_the_last_digits_before_padding_4_and_16_will_do() {
        let fit = |last: &dyn Fn(char) -> String| {
            let digits = ALPHABET.iter().map(|&digit| last(char::from(digit)));
            digits
                .filter(|text| decode(text.as_bytes()).is_some())
                .count()
        };
        assert_eq!(fit(&|digit| format!("Z{digit}==")), 4);
        assert_eq!(fit(&|digit| format!("Zm{digit}=")), 16);
        assert_eq!(fit(&|digit| format!("Zm9{digit}")), 64);
    }
}
