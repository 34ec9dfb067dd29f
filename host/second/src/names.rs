//! Names: 1 to 16 printable bytes that need no escape and separate nothing.

pub const NAME_LIMIT: usize = 16;

/// A name, padded with zeros. No name byte is zero, so the derived order is
/// the order by byte value, a shorter name before a longer one it begins.
#[derive(Clone, Copy, Debug, PartialEq, Eq, PartialOrd, Ord)]
pub struct Name {
    bytes: [u8; NAME_LIMIT],
    length: u8,
}

impl Name {
    pub fn parse(text: &[u8]) -> Option<Name> {
        let well_formed =
            (1..=NAME_LIMIT).contains(&text.len()) && text.iter().all(|&byte| is_name_byte(byte));
        if !well_formed {
            return None;
        }
        let mut bytes = [0; NAME_LIMIT];
        bytes[..text.len()].copy_from_slice(text);
        Some(Name { bytes, length: text.len() as u8 })
    }

    pub fn parse_plain(text: &[u8]) -> Option<Name> {
        let plain = text.iter().all(|&byte| is_plain_byte(byte));
        plain.then(|| Name::parse(text)).flatten()
    }

    pub fn as_bytes(&self) -> &[u8] {
        &self.bytes[..usize::from(self.length)]
    }

    /// Whether this is `*`, which as a role means every role.
    pub fn is_star(&self) -> bool {
        self.as_bytes() == b"*"
    }
}

pub fn is_name_byte(byte: u8) -> bool {
    matches!(byte, b' '..=b'~') && !matches!(byte, b'"' | b'\'' | b';' | b'\\')
}

pub fn is_plain_byte(byte: u8) -> bool {
    byte.is_ascii_alphanumeric() || matches!(byte, b'-' | b'_')
}

/// A decimal number without sign or leading zero, at most `limit`.
pub fn parse_decimal(text: &[u8], limit: u32) -> Option<u32> {
    let well_formed = match text {
        [b'0'] => true,
        [b'1'..=b'9', rest @ ..] => rest.iter().all(u8::is_ascii_digit),
        _ => false,
    };
    if !well_formed {
        return None;
    }
    let number = std::str::from_utf8(text).ok()?.parse().ok()?;
    (number <= limit).then_some(number)
}
