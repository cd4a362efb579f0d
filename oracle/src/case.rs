//! Cases in the binary form that the program `replay` reads.
//!
//! A case is a letter and parts, each part a four-byte length (high byte first)
//! and its bytes; F is followed by four bytes of room, S by four of position.
//! Parts and rooms above 65,536 are taken as 65,536.

use std::fmt;

use crate::answer::hex;

/// Longest part, and largest room, that is kept.
pub const MOST: usize = 65_536;

#[derive(Clone, Copy, Debug, PartialEq, Eq, PartialOrd, Ord)]
pub enum CaseKind {
    /// R: signature and rule, read only.
    ReadRule,
    /// G: signature and group, read only.
    ReadGroup,
    /// F: signature, rule and room.
    Flatten,
    /// S: signature, group and position.
    Scope,
}

impl CaseKind {
    pub const ALL: [CaseKind; 4] = [
        CaseKind::ReadRule,
        CaseKind::ReadGroup,
        CaseKind::Flatten,
        CaseKind::Scope,
    ];

    pub fn letter(self) -> char {
        match self {
            CaseKind::ReadRule => 'R',
            CaseKind::ReadGroup => 'G',
            CaseKind::Flatten => 'F',
            CaseKind::Scope => 'S',
        }
    }

    pub fn from_letter(letter: char) -> Option<Self> {
        Self::ALL.into_iter().find(|kind| kind.letter() == letter)
    }

    /// What the second part is called.
    pub fn record_word(self) -> &'static str {
        match self {
            CaseKind::ReadRule | CaseKind::Flatten => "rule",
            CaseKind::ReadGroup | CaseKind::Scope => "group",
        }
    }

    /// What the number behind the parts is called.
    pub fn number_word(self) -> Option<&'static str> {
        match self {
            CaseKind::ReadRule | CaseKind::ReadGroup => None,
            CaseKind::Flatten => Some("room"),
            CaseKind::Scope => Some("position"),
        }
    }
}

#[derive(Clone, PartialEq, Eq)]
pub struct Case {
    pub kind: CaseKind,
    pub signature: Vec<u8>,
    /// The rule or the group.
    pub record: Vec<u8>,
    /// Room of an F, position of an S; 0 in the others.
    pub number: u32,
}

/// In hexadecimal and not at full length, for messages of failing tests.
impl fmt::Debug for Case {
    fn fmt(&self, f: &mut fmt::Formatter<'_>) -> fmt::Result {
        let letter = self.kind.letter();
        write!(f, "{letter} {}", self.number)?;
        for part in [&self.signature, &self.record] {
            let shown = &part[..part.len().min(400)];
            write!(f, " [{} bytes: {}]", part.len(), hex(shown))?;
        }
        Ok(())
    }
}

impl Case {
    pub fn write(&self, out: &mut Vec<u8>) {
        out.push(self.kind.letter() as u8);
        for part in [&self.signature, &self.record] {
            let length = u32::try_from(part.len()).expect("a part's length has four bytes");
            out.extend(length.to_be_bytes());
            out.extend(part);
        }
        if self.kind.number_word().is_some() {
            out.extend(self.number.to_be_bytes());
        }
    }
}

/// The input ends inside a case, or a case has an unknown letter.
#[derive(Clone, Copy, Debug, PartialEq, Eq)]
pub struct BadCase;

/// The cases of a binary list, one after another.
pub struct Cases<'a> {
    bytes: &'a [u8],
}

impl<'a> Cases<'a> {
    pub fn new(bytes: &'a [u8]) -> Self {
        Cases { bytes }
    }

    fn take(&mut self, count: usize) -> Result<&'a [u8], BadCase> {
        let (head, rest) = self.bytes.split_at_checked(count).ok_or(BadCase)?;
        self.bytes = rest;
        Ok(head)
    }

    fn number(&mut self) -> Result<u32, BadCase> {
        let four = self.take(4)?;
        Ok(u32::from_be_bytes([four[0], four[1], four[2], four[3]]))
    }

    fn part(&mut self) -> Result<Vec<u8>, BadCase> {
        let length = usize::try_from(self.number()?).map_err(|_| BadCase)?;
        let part = self.take(length)?;
        Ok(part[..length.min(MOST)].to_vec())
    }

    fn case(&mut self) -> Result<Case, BadCase> {
        let letter = char::from(self.take(1)?[0]);
        let kind = CaseKind::from_letter(letter).ok_or(BadCase)?;
        let signature = self.part()?;
        let record = self.part()?;
        let number = match kind {
            CaseKind::ReadRule | CaseKind::ReadGroup => 0,
            CaseKind::Flatten => self.number()?.min(MOST as u32),
            CaseKind::Scope => self.number()?,
        };
        Ok(Case {
            kind,
            signature,
            record,
            number,
        })
    }
}

impl Iterator for Cases<'_> {
    type Item = Result<Case, BadCase>;

    /// Nothing comes behind a bad case.
    fn next(&mut self) -> Option<Self::Item> {
        if self.bytes.is_empty() {
            return None;
        }
        let case = self.case();
        if case.is_err() {
            self.bytes = &[];
        }
        Some(case)
    }
}
