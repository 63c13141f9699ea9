//! Writing bodies: bytes of content, and whole records with their length prefixes.

use crate::numbers::VARIABLE;

/// A length prefix with the length that it tells.
#[derive(Debug, Clone, Copy)]
pub enum Prefix {
    Short(u8),
    Long(u16),
}

impl Prefix {
    pub fn push(self, body: &mut Vec<u8>) {
        match self {
            Self::Short(length) => {
                debug_assert!(length < 255, "255 announces a long prefix");
                body.push(length);
            }
            Self::Long(length) => {
                body.push(255);
                body.extend(length.to_be_bytes());
            }
        }
    }

    pub fn length(self) -> usize {
        match self {
            Self::Short(length) => usize::from(length),
            Self::Long(length) => usize::from(length),
        }
    }
}

/// Content whose bytes differ from their neighbours; mostly one digit each, for short rows.
pub fn push_content(body: &mut Vec<u8>, length: usize) {
    const PATTERN: [u8; 7] = [3, 1, 4, 0, 255, 9, 2];
    body.extend((0..length).map(|at| PATTERN[at % PATTERN.len()]));
}

pub fn content(length: usize) -> Vec<u8> {
    let mut body = Vec::with_capacity(length);
    push_content(&mut body, length);
    body
}

/// One whole record of the variable reading. Each variable field takes the next prefix, from
/// the first again when they are used up.
pub fn push_record(body: &mut Vec<u8>, widths: &[u16], prefixes: &[Prefix]) {
    let mut next = prefixes.iter().cycle();
    for &width in widths {
        if width == VARIABLE {
            let prefix = next.next().expect("a variable field needs a prefix");
            prefix.push(body);
            push_content(body, prefix.length());
        } else {
            push_content(body, usize::from(width));
        }
    }
}
