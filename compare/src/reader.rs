//! The reader for run sheets: bytes to modules, marks and slots, or the first offence.

use crate::refusal::{Reason, Refused};
use crate::ring::{MAX_SEATS, MIN_SEATS};
use std::ops::RangeInclusive;

const SEATS: RangeInclusive<u32> = MIN_SEATS as u32..=MAX_SEATS as u32;
const MODULES: RangeInclusive<u32> = 1..=65_535;
const MARKS: RangeInclusive<u32> = 0..=256;
const MARK_TIMES: RangeInclusive<u32> = 0..=4_095;
const SLOTS: RangeInclusive<u32> = 0..=4_096;

/// A number has at most so many digits.
const MAX_DIGITS: usize = 5;

/// What a mark says of its seat.
#[derive(Clone, Copy, Debug, PartialEq, Eq)]
pub enum Kind {
    Send,
    Receive,
    Dark,
}

#[derive(Clone, Copy, Debug, PartialEq, Eq)]
pub struct Mark {
    pub time: usize,
    pub seat: usize,
    pub kind: Kind,
}

/// A good sheet. What the recorder heard in a slot is the spoken bit, or `None` for silence.
#[derive(Clone, Debug, Default, PartialEq, Eq)]
pub struct Sheet {
    pub modules: Vec<u16>,
    pub marks: Vec<Mark>,
    pub slots: Vec<Option<bool>>,
}

/// Reads a sheet from left to right; the first offence decides.
pub fn read(bytes: &[u8]) -> Result<Sheet, Refused> {
    let mut cursor = Cursor { bytes, place: 0 };
    let modules = cursor.ring_section()?;
    let marks = cursor.marks_section(modules.len())?;
    let slots = cursor.slots_section()?;
    match cursor.peek() {
        Some(_) => Err(Reason::BytesAfter.at(cursor.place)),
        None => Ok(Sheet { modules, marks, slots }),
    }
}

/// The sheet and how far it has been read.
struct Cursor<'a> {
    bytes: &'a [u8],
    place: usize,
}

impl Cursor<'_> {
    fn ring_section(&mut self) -> Result<Vec<u16>, Refused> {
        let count = self.number_line(SEATS)?;
        let mut modules = Vec::with_capacity(count);
        for _ in 0..count {
            let line = self.place;
            let module = self.number_line(MODULES)? as u16;
            if modules.contains(&module) {
                return Err(Reason::DuplicateModule.at(line));
            }
            modules.push(module);
        }
        Ok(modules)
    }

    fn marks_section(&mut self, seats: usize) -> Result<Vec<Mark>, Refused> {
        let count = self.number_line(MARKS)?;
        let mut marks: Vec<Mark> = Vec::with_capacity(count);
        for _ in 0..count {
            let mark = self.mark_line(seats, marks.last())?;
            marks.push(mark);
        }
        Ok(marks)
    }

    fn slots_section(&mut self) -> Result<Vec<Option<bool>>, Refused> {
        let count = self.number_line(SLOTS)?;
        let mut slots = Vec::with_capacity(count);
        for _ in 0..count {
            let heard = self.heard()?;
            self.expect(b'\n')?;
            slots.push(heard);
        }
        Ok(slots)
    }

    /// A line `time seat kind`; `before` is the mark on the line before it.
    fn mark_line(&mut self, seats: usize, before: Option<&Mark>) -> Result<Mark, Refused> {
        let line = self.place;
        let time = self.number()?;
        self.expect(b' ')?;
        let seat = self.number()?;
        self.expect(b' ')?;
        let kind = self.kind()?;
        self.expect(b'\n')?;

        let mark = Mark { time: time as usize, seat: seat as usize, kind };
        if !MARK_TIMES.contains(&time) || mark.seat >= seats {
            return Err(Reason::OutsideLimits.at(line));
        }
        if before.is_some_and(|b| (mark.time, mark.seat) <= (b.time, b.seat)) {
            return Err(Reason::MarksNotAscending.at(line));
        }
        let owns = mark.time % seats == mark.seat;
        match kind {
            Kind::Send if !owns => Err(Reason::WrongMark.at(line)),
            Kind::Receive if owns => Err(Reason::WrongMark.at(line)),
            _ => Ok(mark),
        }
    }

    /// A line that holds one number within the limits.
    fn number_line(&mut self, limits: RangeInclusive<u32>) -> Result<usize, Refused> {
        let line = self.place;
        let number = self.number()?;
        self.expect(b'\n')?;
        if limits.contains(&number) {
            Ok(number as usize)
        } else {
            Err(Reason::OutsideLimits.at(line))
        }
    }

    /// One to five digits; after a leading `0` no digit can stand, so the number ends there.
    fn number(&mut self) -> Result<u32, Refused> {
        let first = self.take(|byte| byte.is_ascii_digit().then_some(byte))?;
        let mut number = u32::from(first - b'0');
        let mut digits = 1;
        while number > 0 && digits < MAX_DIGITS {
            let Some(digit @ b'0'..=b'9') = self.peek() else { break };
            number = number * 10 + u32::from(digit - b'0');
            digits += 1;
            self.place += 1;
        }
        Ok(number)
    }

    fn kind(&mut self) -> Result<Kind, Refused> {
        self.take(|byte| match byte {
            b'S' => Some(Kind::Send),
            b'R' => Some(Kind::Receive),
            b'D' => Some(Kind::Dark),
            _ => None,
        })
    }

    fn heard(&mut self) -> Result<Option<bool>, Refused> {
        self.take(|byte| match byte {
            b'1' => Some(Some(true)),
            b'0' => Some(Some(false)),
            b'-' => Some(None),
            _ => None,
        })
    }

    fn expect(&mut self, wanted: u8) -> Result<(), Refused> {
        self.take(|byte| (byte == wanted).then_some(()))
    }

    /// Takes one byte for what it means, or refuses it where it means nothing.
    fn take<T>(&mut self, meaning: impl Fn(u8) -> Option<T>) -> Result<T, Refused> {
        let byte = self.peek().ok_or(Reason::EndsEarly.at(self.bytes.len()))?;
        let value = meaning(byte).ok_or(Reason::WrongByte.at(self.place))?;
        self.place += 1;
        Ok(value)
    }

    fn peek(&self) -> Option<u8> {
        self.bytes.get(self.place).copied()
    }
}

#[cfg(test)]
mod tests {
    use super::*;

    fn refusal(sheet: &str) -> (u32, usize) {
        let refused = read(sheet.as_bytes()).expect_err("the sheet should be refused");
        (refused.reason.number(), refused.place)
    }

    #[test]
    fn reads_the_sheet_of_document_01() {
        let sheet = read(b"4\n11\n12\n13\n14\n1\n0 2 R\n4\n1\n1\n-\n0\n").unwrap();
        assert_eq!(sheet.modules, [11, 12, 13, 14]);
        assert_eq!(sheet.marks, [Mark { time: 0, seat: 2, kind: Kind::Receive }]);
        assert_eq!(sheet.slots, [Some(true), Some(true), None, Some(false)]);
    }

    #[test]
    fn refuses_as_the_reference_runs_say() {
        assert_eq!(refusal(""), (1, 0));
        assert_eq!(refusal("1\n"), (3, 0));
        assert_eq!(refusal("02"), (2, 1));
        assert_eq!(refusal("2\n7\n7\n"), (4, 4));
        assert_eq!(refusal("2\n7\n8\n1\n0 1 S\n0\n"), (6, 8));
        assert!(read(b"2\n7\n8\n0\n0\n").is_ok());
        assert_eq!(refusal("2\n7\n8\n0\n0\n\n"), (7, 10));
    }

    #[test]
    fn every_proper_beginning_of_a_good_sheet_ends_early() {
        let good = "3\n7\n80\n65535\n2\n0 1 R\n4095 0 S\n2\n1\n-\n";
        assert!(read(good.as_bytes()).is_ok());
        for end in 0..good.len() {
            assert_eq!(refusal(&good[..end]), (1, end));
        }
    }

    #[test]
    fn a_number_has_at_most_five_digits_and_no_leading_zero() {
        assert_eq!(refusal("2\n123456"), (2, 7));
        assert_eq!(refusal("2\n99999\n"), (3, 2));
        assert_eq!(refusal("2\n65536\n"), (3, 2));
        assert_eq!(refusal("2\n0\n"), (3, 2));
        assert_eq!(refusal("2\n00\n"), (2, 3));
        assert_eq!(refusal("2\n7\n8\n00\n"), (2, 7));
        assert_eq!(refusal("2\n7\n8\n1\n00 1 R\n"), (2, 9));
        assert_eq!(refusal("2\n\n"), (2, 2));
        assert_eq!(refusal("2\r\n"), (2, 1));
        assert_eq!(refusal("-1"), (2, 0));
        assert_eq!(refusal("+2"), (2, 0));
        assert_eq!(refusal(" 2"), (2, 0));
    }

    #[test]
    fn limits_are_checked_on_complete_lines() {
        assert_eq!(refusal("33\n"), (3, 0));
        assert_eq!(refusal("33"), (1, 2));
        assert_eq!(refusal("33 "), (2, 2));
        assert_eq!(refusal("0\n"), (3, 0));
        assert_eq!(refusal("2\n7\n8\n257\n"), (3, 6));
        assert_eq!(refusal("2\n7\n8\n0\n4097\n"), (3, 8));
        assert_eq!(refusal("2\n7\n8\n1\n4096 0 S\n"), (3, 8));
        assert_eq!(refusal("2\n7\n8\n1\n4096 0 X\n"), (2, 15));
        assert_eq!(refusal("2\n7\n8\n1\n4096 0 S"), (1, 16));
        assert_eq!(refusal("2\n7\n8\n1\n4096 0 S\r\n"), (2, 16));
        assert_eq!(refusal("2\n7\n8\n1\n0 2 R\n"), (3, 8));
    }

    #[test]
    fn on_one_line_limits_come_before_order_and_order_before_the_kind() {
        assert_eq!(refusal("2\n7\n8\n2\n3 1 S\n0 2 S\n"), (3, 14));
        assert_eq!(refusal("2\n7\n8\n2\n3 1 S\n0 1 S\n"), (5, 14));
        assert_eq!(refusal("2\n7\n8\n2\n3 1 S\n3 1 D\n"), (5, 14));
        assert_eq!(refusal("2\n7\n8\n2\n3 1 S\n3 0 R\n"), (5, 14));
        assert_eq!(refusal("2\n7\n8\n2\n3 1 S\n4 1 S\n"), (6, 14));
        assert_eq!(refusal("2\n7\n8\n2\n3 1 S\n4 0 R\n"), (6, 14));
        assert!(read(b"2\n7\n8\n2\n3 0 D\n3 1 D\n0\n").is_ok());
    }

    #[test]
    fn a_slot_is_one_mark() {
        assert_eq!(refusal("2\n7\n8\n0\n1\n2\n"), (2, 10));
        assert_eq!(refusal("2\n7\n8\n0\n1\n\n"), (2, 10));
        assert_eq!(refusal("2\n7\n8\n0\n1\n11\n"), (2, 11));
        assert_eq!(refusal("2\n7\n8\n0\n1\n-"), (1, 11));
        assert_eq!(refusal("2\n7\n8\n0\n1\n-\n0"), (7, 12));
    }
}
