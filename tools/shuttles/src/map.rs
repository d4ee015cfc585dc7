//! The map and its agents: instance bytes, and where they came from.

use crate::description;
use crate::errors::{Error, Kind};
use crate::horizon::Horizon;
use std::path::Path;

/// The goal byte of an agent without a destination.
pub const NO_GOAL: u8 = 255;

pub struct Map {
    pub bytes: Vec<u8>,
    /// Where the map came from a description.
    pub lines: Option<Lines>,
}

/// The line of each edge and of each agent, counted from 1.
pub struct Lines {
    pub edges: Vec<usize>,
    pub agents: Vec<usize>,
}

/// A description, or instance bytes: whatever is text throughout is a description. No accepted instance is a text,
/// since its fourth byte, the high byte of its at most 2016 edges, is at most 7; nor does one begin as UTF-16 does,
/// since its first byte is at most 64.
pub fn read(path: &str) -> Result<Map, Error> {
    let bytes = file(path.as_ref())?;
    marked(&bytes).map_err(|error| error.in_file(path))?;
    match text_of(&bytes) {
        Some(text) => description::map(text).map_err(|error| error.in_file(path)),
        None => Ok(Map { bytes, lines: None }),
    }
}

/// A description and nothing else.
pub fn read_description(path: &str) -> Result<Map, Error> {
    let bytes = file(path.as_ref())?;
    marked(&bytes)
        .and_then(|()| text_of(&bytes).ok_or(Kind::NotText.alone()))
        .and_then(description::map)
        .map_err(|error| error.in_file(path))
}

/// An error where a byte order mark comes first.
pub fn marked(bytes: &[u8]) -> Result<(), Error> {
    match bytes {
        [0xff, 0xfe, ..] | [0xfe, 0xff, ..] => Err(Kind::ByteOrderMark.with("UTF-16")),
        [0xef, 0xbb, 0xbf, ..] => Err(Kind::ByteOrderMark.with("UTF-8")),
        _ => Ok(()),
    }
}

pub fn file(path: &Path) -> Result<Vec<u8>, Error> {
    std::fs::read(path).map_err(|error| {
        match error.kind() {
            std::io::ErrorKind::NotFound => Kind::NoFile.alone(),
            std::io::ErrorKind::IsADirectory => Kind::Folder.alone(),
            _ => Kind::Unreadable.with(error),
        }
        .in_file(&path.to_string_lossy())
    })
}

pub fn text_of(bytes: &[u8]) -> Option<&str> {
    let text = std::str::from_utf8(bytes).ok()?;
    let allowed = |c: char| !c.is_control() || matches!(c, '\t' | '\n' | '\r');
    text.chars().all(allowed).then_some(text)
}

impl Map {
    fn byte(&self, index: usize) -> Option<usize> {
        self.bytes.get(index).map(|&byte| byte as usize)
    }

    // A size that is not there counts as 0.

    pub fn vertices(&self) -> usize {
        self.byte(0).unwrap_or(0)
    }

    pub fn agents(&self) -> usize {
        self.byte(1).unwrap_or(0)
    }

    pub fn edges(&self) -> usize {
        self.byte(2).unwrap_or(0) + 256 * self.byte(3).unwrap_or(0)
    }

    pub fn start_offset(&self) -> usize {
        4 + 2 * self.edges()
    }

    pub fn goal_offset(&self) -> usize {
        self.start_offset() + self.agents()
    }

    /// The length that the sizes ask for.
    pub fn length(&self) -> usize {
        self.goal_offset() + self.agents()
    }

    /// The low and the high end of an edge.
    pub fn edge(&self, j: usize) -> Option<(usize, usize)> {
        let j = (j < self.edges()).then_some(j)?;
        Some((self.byte(4 + j)?, self.byte(4 + self.edges() + j)?))
    }

    pub fn start(&self, a: usize) -> Option<usize> {
        let a = (a < self.agents()).then_some(a)?;
        self.byte(self.start_offset() + a)
    }

    /// The goal of an agent that has one.
    pub fn goal(&self, a: usize) -> Option<usize> {
        self.goal_byte(a).filter(|&goal| goal != NO_GOAL.into())
    }

    /// Whether the agent has no destination.
    pub fn is_free(&self, a: usize) -> bool {
        self.goal_byte(a) == Some(NO_GOAL.into())
    }

    fn goal_byte(&self, a: usize) -> Option<usize> {
        let a = (a < self.agents()).then_some(a)?;
        self.byte(self.goal_offset() + a)
    }

    /// (m+1)·k.
    pub fn plan_bytes(&self, horizon: &Horizon) -> usize {
        horizon.times() * self.agents()
    }

    /// N = n·k·(m+1).
    pub fn variables(&self, horizon: &Horizon) -> usize {
        self.vertices() * self.plan_bytes(horizon)
    }
}

#[cfg(test)]
mod tests {
    use super::*;

    #[test]
    fn text_and_bytes() {
        assert_eq!(
            text_of(b"vertices 2\r\n\t# \xc3\xa9"),
            Some("vertices 2\r\n\t# é")
        );
        assert_eq!(text_of(b""), Some(""));
        for bytes in [
            &b"\x02\x01\x01\x00"[..],
            b"ABC\x07",
            b"\xff\xfe",
            b"a\x7f",
            b"\xc2\x85",
        ] {
            assert_eq!(text_of(bytes), None);
        }
    }

    #[test]
    fn byte_order_marks() {
        for bytes in [
            &b"\xef\xbb\xbfvertices 2"[..],
            b"\xff\xfev\0",
            b"\xfe\xff\0v",
        ] {
            assert_eq!(marked(bytes).unwrap_err().kind, Kind::ByteOrderMark);
        }
        assert_eq!(marked(b"\x02\x01\x01\x00"), Ok(()));
    }

    #[test]
    fn what_is_not_there() {
        let map = Map {
            bytes: vec![3, 2, 1],
            lines: None,
        };
        assert_eq!((map.vertices(), map.agents(), map.edges()), (3, 2, 1));
        assert_eq!((map.length(), map.edge(0), map.goal(1)), (10, None, None));
        assert!(!map.is_free(1));
    }

    /// A goal of 254 is one, though on no map; behind the last agent there is none.
    #[test]
    fn agents_without_a_destination() {
        let map = Map {
            bytes: vec![4, 4, 0, 0, 0, 1, 2, 3, 255, 2, 254, 255],
            lines: None,
        };
        let goals: Vec<_> = (0..5).map(|a| map.goal(a)).collect();
        assert_eq!(goals, [None, Some(2), Some(254), None, None]);
        let free: Vec<_> = (0..5).map(|a| map.is_free(a)).collect();
        assert_eq!(free, [true, false, false, true, false]);
    }
}
