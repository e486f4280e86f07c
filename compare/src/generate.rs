//! Good sheets, made at random or one after another, with what their bus recorder should have heard.

use crate::page::TRAIL_BYTES;
use crate::random::Random;
use crate::reader::{Kind, Mark, Sheet};
use crate::ring::{Ring, StepMarks, MAX_SEATS, MAX_TIME};
use crate::run::Schedule;
use std::collections::BTreeMap;

const MAX_MARKS: usize = 256;
const LAST_MARK_TIME: usize = 4_095;

/// Marks under construction, in the order of a sheet.
type Marks = BTreeMap<(usize, usize), Kind>;

/// A sheet as bytes.
pub fn to_bytes(sheet: &Sheet) -> Vec<u8> {
    let mut text = format!("{}\n", sheet.modules.len());
    for module in &sheet.modules {
        text += &format!("{module}\n");
    }
    text += &format!("{}\n", sheet.marks.len());
    for mark in &sheet.marks {
        let letter = match mark.kind {
            Kind::Send => 'S',
            Kind::Receive => 'R',
            Kind::Dark => 'D',
        };
        text += &format!("{} {} {letter}\n", mark.time, mark.seat);
    }
    text += &format!("{}\n", sheet.slots.len());
    for slot in &sheet.slots {
        text += match slot {
            Some(true) => "1\n",
            Some(false) => "0\n",
            None => "-\n",
        };
    }
    text.into_bytes()
}

/// A good sheet at random; its bus agrees in most cases, and in the others differs somewhere.
pub fn good(random: &mut Random) -> Sheet {
    let n = match random.below(4) {
        0 => random.within(2..=3),
        1 => random.within(2..=6),
        2 => random.within(4..=12),
        _ => random.within(2..=MAX_SEATS),
    };
    let slots = slot_count(random, n);
    let mut sheet = Sheet { modules: modules(random, n), marks: marks(random, n, slots), slots: vec![None; slots] };
    hear(&mut sheet);
    if slots > 0 && random.once_in(5) {
        differ(random, &mut sheet.slots);
    }
    sheet
}

/// Few slots in most sheets, all 4,096 in some.
fn slot_count(random: &mut Random, n: usize) -> usize {
    match random.below(1_000) {
        0..=79 => random.within(0..=3),
        80..=699 => random.within(0..=4 * n),
        700..=989 => random.within(0..=160),
        990..=996 => random.within(0..=800),
        997..=998 => random.within(0..=MAX_TIME),
        _ => MAX_TIME,
    }
}

/// Modules of few or many digits, all different.
fn modules(random: &mut Random, n: usize) -> Vec<u16> {
    let most = random.pick(&[99, 999, 9_999, 65_535]);
    let mut modules = Vec::new();
    while modules.len() < n {
        let module = if random.once_in(16) { random.pick(&[1, 9, 10, 65_535]) } else { random.within(1..=most) };
        if !modules.contains(&(module as u16)) {
            modules.push(module as u16);
        }
    }
    modules
}

/// Marks in one of several manners, some of them past the last slot.
fn marks(random: &mut Random, n: usize, slots: usize) -> Vec<Mark> {
    let mut marks = Marks::new();
    match random.below(8) {
        0 => {}
        1 => scattered(random, n, slots, &mut marks),
        2 => burst(random, n, slots, &mut marks),
        3 => around(random, n, slots, &mut marks),
        4 => spaced(random, n, slots, &[n, n + 1, n + 2], &mut marks),
        5 => spaced(random, n, slots, &[n + 1, n + 2, 2 * n, 3 * n + 1], &mut marks),
        6 => spaced(random, n, slots, &[1, 2, n / 2 + 1, n - 1, n], &mut marks),
        _ => {
            spaced(random, n, slots, &[n + 1, 2 * n], &mut marks);
            around(random, n, slots, &mut marks);
        }
    }
    while marks.len() > MAX_MARKS {
        let nth = random.below(marks.len());
        let key = *marks.keys().nth(nth).expect("nth is below the number of marks");
        marks.remove(&key);
    }
    marks.into_iter().map(|((time, seat), kind)| Mark { time, seat, kind }).collect()
}

/// Puts a mark of the kind that can stand there, or now and then a dark one.
fn put(random: &mut Random, n: usize, time: usize, seat: usize, marks: &mut Marks) {
    let kind = match time % n == seat {
        _ if random.once_in(12) => Kind::Dark,
        true => Kind::Send,
        false => Kind::Receive,
    };
    if time <= LAST_MARK_TIME {
        marks.insert((time, seat), kind);
    }
}

/// Anywhere, up to a little past the last slot.
fn scattered(random: &mut Random, n: usize, slots: usize, marks: &mut Marks) {
    let most = random.pick(&[2, 8, 40, MAX_MARKS]);
    for _ in 0..random.within(1..=most) {
        let (time, seat) = (random.below(slots + 3), random.below(n));
        put(random, n, time, seat, marks);
    }
}

/// Many within two rounds of the ring.
fn burst(random: &mut Random, n: usize, slots: usize, marks: &mut Marks) {
    let start = random.below(slots + 1);
    for _ in 0..random.within(1..=3 * n) {
        let (time, seat) = (start + random.below(2 * n), random.below(n));
        put(random, n, time, seat, marks);
    }
}

/// Some slots just before and after one seat's own.
fn around(random: &mut Random, n: usize, slots: usize, marks: &mut Marks) {
    let seat = random.below(n);
    let own = random.below(slots / n + 1) * n + seat;
    for _ in 0..random.within(1..=4) {
        let time = (own + random.below(5)).saturating_sub(2);
        put(random, n, time, seat, marks);
    }
}

/// Faults of one seat after another, the times between them out of a few.
fn spaced(random: &mut Random, n: usize, slots: usize, gaps: &[usize], marks: &mut Marks) {
    let mut time = random.below(2 * n);
    let mut seat = random.below(n);
    while time < slots + n && marks.len() < MAX_MARKS {
        put(random, n, time, seat, marks);
        time += random.pick(gaps);
        if !random.once_in(4) {
            seat = random.below(n);
        }
    }
}

/// Fills the slots with what the owners speak, so that the bus agrees.
pub fn hear(sheet: &mut Sheet) {
    let mut ring = Ring::fresh(sheet.modules.len()).expect("a sheet has 2 to 32 modules");
    let mut schedule = Schedule::new(&sheet.marks);
    let mut trail = [0; TRAIL_BYTES];
    for slot in &mut sheet.slots {
        let marks: StepMarks = schedule.next(&ring);
        *slot = ring.spoken(marks.send);
        ring.step(marks, &mut trail).expect("a good sheet's steps are taken");
    }
}

/// Makes one slot, or every slot from it on, something else than was spoken.
fn differ(random: &mut Random, slots: &mut [Option<bool>]) {
    const HEARD: [Option<bool>; 3] = [None, Some(false), Some(true)];
    let first = random.below(slots.len());
    let spoken = slots[first];
    let others: Vec<_> = HEARD.into_iter().filter(|&heard| heard != spoken).collect();
    slots[first] = random.pick(&others);
    if random.once_in(2) {
        slots[first + 1..].fill_with(|| random.pick(&HEARD));
    }
}

/// The marks that a number stands for: its digits say, slot by slot and seat by seat, whether there
/// is no mark, the one that can stand there, or (with three digits) a dark one.
pub fn marks_numbered(n: usize, slots: usize, digits: u64, number: u64) -> Vec<Mark> {
    let mut marks = Vec::new();
    let mut rest = number;
    for time in 0..slots {
        for seat in 0..n {
            let kind = match rest % digits {
                0 => None,
                1 if time % n == seat => Some(Kind::Send),
                1 => Some(Kind::Receive),
                _ => Some(Kind::Dark),
            };
            marks.extend(kind.map(|kind| Mark { time, seat, kind }));
            rest /= digits;
        }
    }
    marks
}

/// The slots that a number stands for, by its digits to the base 3.
pub fn slots_numbered(slots: usize, number: u64) -> Vec<Option<bool>> {
    let mut rest = number;
    let mut heard = || {
        let digit = rest % 3;
        rest /= 3;
        [None, Some(false), Some(true)][digit as usize]
    };
    (0..slots).map(|_| heard()).collect()
}

/// The benchmark's sheet, the longest that is good: 32 modules, 256 marks and 4,096 slots.
///
/// Seats fail one after another from time 1,000 on, ten never do, and the bus agrees.
pub fn longest() -> Sheet {
    let mut sheet = Sheet { slots: vec![None; MAX_TIME], ..Sheet::default() };
    sheet.modules = (0..MAX_SEATS as u16).map(|seat| 60_000 + seat).collect();
    for k in 0..MAX_MARKS {
        let (time, seat) = (1_000 + 12 * k, 10 + k / 12);
        let kind = if time % MAX_SEATS == seat { Kind::Send } else { Kind::Receive };
        sheet.marks.push(Mark { time, seat, kind });
    }
    hear(&mut sheet);
    sheet
}

/// A sheet in which each seat in turn is silent in its own slot, n + 1 slots after the one before.
///
/// The fault terms hold until fewer than two seats are sound, and every removal is recorded.
pub fn one_after_another(n: usize) -> Sheet {
    let mark = |seat| Mark { time: (n + 1) * seat, seat, kind: Kind::Send };
    let mut sheet = Sheet { slots: vec![None; n * (n + 2)], ..Sheet::default() };
    sheet.modules = (0..n as u16).map(|seat| 65_535 - seat).collect();
    sheet.marks = (0..n).map(mark).collect();
    hear(&mut sheet);
    sheet
}

#[cfg(test)]
mod tests {
    use super::*;
    use crate::reader::read;
    use crate::run::{run, Verdict};

    #[test]
    fn reading_what_was_written_gives_the_same_sheet() {
        for number in 0..2_000 {
            let sheet = good(&mut Random::for_sheet(1, number));
            assert_eq!(read(&to_bytes(&sheet)).as_ref(), Ok(&sheet));
        }
    }

    #[test]
    fn the_longest_good_sheet_has_10_956_bytes() {
        let sheet = longest();
        assert_eq!(to_bytes(&sheet).len(), 10_956);
        assert_eq!(read(&to_bytes(&sheet)), Ok(sheet));
    }

    #[test]
    fn seats_that_fail_n_plus_1_apart_stay_within_the_terms_while_two_are_sound() {
        for n in 2..=MAX_SEATS {
            let run = run(&to_bytes(&one_after_another(n)), &mut [0; TRAIL_BYTES]);
            let verdict = Verdict { bus_differs: None, faults_outside: Some((n + 1) * (n - 2)) };
            assert_eq!(run.answer, Ok(verdict));
        }
    }

    #[test]
    fn every_number_stands_for_other_marks_and_slots() {
        let marks: Vec<_> = (0..81).map(|number| marks_numbered(2, 2, 3, number)).collect();
        let slots: Vec<_> = (0..81).map(|number| slots_numbered(4, number)).collect();
        for (k, j) in (0..81).flat_map(|k| (0..k).map(move |j| (k, j))) {
            assert!(marks[k] != marks[j] && slots[k] != slots[j]);
        }
    }
}
