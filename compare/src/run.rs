//! A run: a sheet's slots, one step after another, and the verdict.

use crate::reader::{self, Kind, Mark, Sheet};
use crate::refusal::Refused;
use crate::ring::{Ring, SeatSet, StepMarks};

/// What a run that was not refused says of the bus and of the faults.
#[derive(Clone, Copy, Debug, PartialEq, Eq)]
pub struct Verdict {
    /// The first slot in which the recorder heard something else than was spoken.
    pub bus_differs: Option<usize>,
    /// The first step taken up to which the fault terms fail.
    pub faults_outside: Option<usize>,
}

/// What comes of a run. The ring of a refused sheet is the zero ring, and its modules are none.
#[derive(Clone, Debug, PartialEq, Eq)]
pub struct Run {
    pub modules: Vec<u16>,
    pub ring: Ring,
    pub answer: Result<Verdict, Refused>,
}

/// Reads a sheet and steps a fresh ring through its slots.
pub fn run(bytes: &[u8], trail: &mut [u8]) -> Run {
    match reader::read(bytes) {
        Ok(sheet) => run_sheet(sheet, trail),
        Err(refused) => Run { modules: Vec::new(), ring: Ring::default(), answer: Err(refused) },
    }
}

fn run_sheet(sheet: Sheet, trail: &mut [u8]) -> Run {
    let mut ring = Ring::default();
    let answer = walk(&sheet, &mut ring, trail);
    Run { modules: sheet.modules, ring, answer }
}

/// Steps through the slots up to the last one, the first difference or a refusal.
fn walk(sheet: &Sheet, ring: &mut Ring, trail: &mut [u8]) -> Result<Verdict, Refused> {
    *ring = Ring::fresh(sheet.modules.len())?;
    let mut schedule = Schedule::new(&sheet.marks);
    let mut bus_differs = None;
    for &heard in &sheet.slots {
        let marks = schedule.next(ring);
        if ring.spoken(marks.send) != heard {
            bus_differs = Some(ring.time);
            break;
        }
        ring.step(marks, trail)?;
    }
    Ok(Verdict { bus_differs, faults_outside: ring.faults_outside()? })
}

/// The marks of a sheet, handed out slot by slot.
pub struct Schedule<'a> {
    rest: &'a [Mark],
    dark: SeatSet,
}

impl<'a> Schedule<'a> {
    pub fn new(marks: &'a [Mark]) -> Schedule<'a> {
        Schedule { rest: marks, dark: SeatSet::EMPTY }
    }

    /// The marks of the ring's next step; to be asked once for every slot from time 0 on.
    pub fn next(&mut self, ring: &Ring) -> StepMarks {
        let mut marks = StepMarks::default();
        while let [mark, rest @ ..] = self.rest {
            if mark.time > ring.time {
                break;
            }
            match mark.kind {
                Kind::Send => marks.send = true,
                Kind::Receive => marks.receive = marks.receive.with(mark.seat),
                Kind::Dark => self.dark = self.dark.with(mark.seat),
            }
            self.rest = rest;
        }
        let owner = ring.owner();
        marks.send |= self.dark.has(owner);
        marks.receive = marks.receive.union(self.dark.without(owner));
        marks
    }
}

#[cfg(test)]
mod tests {
    use super::*;
    use crate::page::TRAIL_BYTES;
    use crate::refusal::Reason;

    const FIRST: &[u8] = b"4\n11\n12\n13\n14\n1\n0 2 R\n4\n1\n1\n-\n0\n";

    #[test]
    fn a_run_without_room_keeps_the_ring_and_records_of_the_last_full_step() {
        let mut trail = [7; 24];
        let run = run(FIRST, &mut trail);
        assert_eq!(run.answer, Err(Reason::NoRoom.at(2)));
        assert_eq!((run.ring.time, run.ring.records), (2, 2));
        assert_eq!(trail[..10], *b"\0\0\x02\0c\x01\0\x02\x02b");
        assert_eq!(trail[10..], [7; 14]);
    }

    #[test]
    fn a_refused_sheet_gives_the_zero_ring_and_leaves_the_trail() {
        let mut trail = [7; 20];
        let run = run(&FIRST[..FIRST.len() - 1], &mut trail);
        assert_eq!(run.answer, Err(Reason::EndsEarly.at(FIRST.len() - 1)));
        assert_eq!((run.ring, trail), (Ring::default(), [7; 20]));
        assert!(run.modules.is_empty());
    }

    #[test]
    fn at_the_first_difference_the_step_is_not_taken() {
        let mut sheet = FIRST.to_vec();
        let slot_2 = sheet.len() - 4;
        sheet[slot_2] = b'1';
        let run = run(&sheet, &mut [0; TRAIL_BYTES]);
        let verdict = Verdict { bus_differs: Some(2), faults_outside: None };
        assert_eq!((run.answer, run.ring.time, run.ring.records), (Ok(verdict), 2, 2));
    }

    #[test]
    fn a_dark_seat_is_silent_in_its_slots_and_misses_all_others() {
        let mark = |time, seat, kind| Mark { time, seat, kind };
        let marks = [mark(2, 1, Kind::Dark), mark(3, 2, Kind::Receive)];
        let mut schedule = Schedule::new(&marks);
        let mut ring = Ring::fresh(3).unwrap();
        let mut seen = Vec::new();
        for time in 0..6 {
            ring.time = time;
            let marks = schedule.next(&ring);
            seen.push((marks.send, marks.receive.0));
        }
        let none = (false, 0);
        assert_eq!(seen, [none, none, (false, 0b010), (false, 0b110), (true, 0), (false, 0b010)]);
    }
}
