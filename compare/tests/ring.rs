//! Steps of the ring as document 01's reference runs, refusal table and list of errors have them.

use compare::page::TRAIL_BYTES;
use compare::refusal::Reason;
use compare::ring::{Ring, Seat, SeatSet, StepMarks, MAX_TIME};
use compare::trail::RECORD_BYTES;

/// A fault given to a step: the owner is silent, or a seat misses the slot.
enum Fault {
    Send,
    Miss(usize),
}

/// A ring after some steps, and its trail.
fn ring_after(n: usize, steps: usize, faults: &[(usize, Fault)]) -> (Ring, Vec<u8>) {
    let mut trail = vec![0; TRAIL_BYTES];
    let mut ring = Ring::fresh(n).unwrap();
    for time in 0..steps {
        let mut marks = StepMarks::default();
        for (_, fault) in faults.iter().filter(|(at, _)| *at == time) {
            match *fault {
                Fault::Send => marks.send = true,
                Fault::Miss(seat) => marks.receive = marks.receive.with(seat),
            }
        }
        ring.step(marks, &mut trail).unwrap();
    }
    trail.truncate(ring.records * RECORD_BYTES);
    (ring, trail)
}

fn records(trail: &[u8]) -> Vec<(u16, u8, u8, char)> {
    let read = |r: &[u8]| (u16::from_le_bytes([r[0], r[1]]), r[2], r[3], char::from(r[4]));
    trail.chunks(RECORD_BYTES).map(read).collect()
}

fn set(seats: &[usize]) -> SeatSet {
    seats.iter().fold(SeatSet::EMPTY, |set, &seat| set.with(seat))
}

#[test]
fn a_send_fault_in_a_ring_of_four() {
    let (ring, trail) = ring_after(4, 5, &[(2, Fault::Send)]);
    for p in [0, 1, 3] {
        assert_eq!((ring.seats[p].set, ring.seats[p].ack), (set(&[0, 1, 3]), true));
    }
    assert_eq!(ring.seats[2].set, set(&[0, 1]));
    assert!(ring.is_out(2));
    let own: Vec<_> = records(&trail).into_iter().filter(|r| r.1 == 2).collect();
    assert_eq!(own, [(3, 2, 3, 'd'), (4, 2, 2, 'b')]);
}

#[test]
fn the_printed_run_as_sets() {
    let (ring, trail) = ring_after(4, 4, &[(0, Fault::Miss(2))]);
    for p in [0, 1, 3] {
        assert_eq!((ring.seats[p].set, ring.seats[p].ack), (set(&[0, 1, 3]), true));
    }
    assert_eq!(ring.seats[2].set, set(&[1, 3]));
    let all = [(0, 2, 0, 'c'), (1, 2, 2, 'b'), (2, 0, 2, 'c'), (2, 1, 2, 'c'), (2, 3, 2, 'c')];
    assert_eq!(records(&trail), all);
}

#[test]
fn footnote_4_puts_a_seat_out_by_e() {
    let (ring, trail) = ring_after(3, 3, &[(0, Fault::Miss(1))]);
    assert_eq!((ring.seats[0].set, ring.seats[2].set), (set(&[0, 2]), set(&[0, 2])));
    assert_eq!(ring.seats[1].set, set(&[2]));
    assert!(records(&trail).contains(&(2, 1, 1, 'e')));
}

#[test]
fn a_seat_that_misses_both_slots_around_its_own_is_alone() {
    let (ring, _) = ring_after(3, 3, &[(0, Fault::Miss(1)), (2, Fault::Miss(1))]);
    assert_eq!(ring.seats[1].set, set(&[1]));
}

#[test]
fn two_first_faults_four_apart() {
    let faults = [(0, Fault::Miss(3)), (4, Fault::Send)];
    let (ring, trail) = ring_after(4, 5, &faults);
    assert!(records(&trail).contains(&(4, 1, 1, 'a')));
    assert!(records(&trail).contains(&(4, 2, 2, 'a')));
    assert_eq!(ring.faults_outside(), Ok(Some(4)));
    assert_eq!(ring_after(4, 4, &faults).0.faults_outside(), Ok(None));
}

#[test]
fn two_first_faults_five_apart() {
    let (ring, _) = ring_after(4, 6, &[(0, Fault::Miss(3)), (5, Fault::Send)]);
    for p in [0, 2] {
        assert_eq!((ring.seats[p].set, ring.seats[p].ack), (set(&[0, 2]), false));
    }
    assert_eq!(ring.faults_outside(), Ok(None));
}

#[test]
fn fewer_than_two_sound_seats_are_outside_the_terms() {
    assert_eq!(ring_after(2, 1, &[(0, Fault::Send)]).0.faults_outside(), Ok(Some(0)));
    let far = [(0, Fault::Send), (4, Fault::Send)];
    assert_eq!(ring_after(3, 5, &far).0.faults_outside(), Ok(Some(4)));
    assert_eq!(ring_after(3, 4, &far).0.faults_outside(), Ok(None));
}

#[test]
fn two_first_faults_in_one_step_are_outside_the_terms() {
    let faults = [(3, Fault::Miss(1)), (3, Fault::Miss(2))];
    assert_eq!(ring_after(8, 4, &faults).0.faults_outside(), Ok(Some(3)));
}

#[test]
fn a_receive_mark_in_a_silent_slot_is_no_fault() {
    let (ring, _) = ring_after(4, 1, &[(0, Fault::Send), (0, Fault::Miss(1))]);
    assert_eq!(ring.seats[0].first_fault, Some(0));
    assert_eq!(ring.seats[1].first_fault, None);
}

#[test]
fn the_owners_doubt_is_set_also_where_it_was_silent() {
    let (ring, _) = ring_after(4, 2, &[(0, Fault::Miss(1)), (1, Fault::Send)]);
    assert!(ring.seats[1].ack && ring.seats[1].doubt);
}

#[test]
fn an_unexpected_slot_leaves_doubt_alone() {
    // Seat 1 has doubt and doesn't expect seat 0, which owns this slot and speaks.
    let mut ring = Ring::fresh(2).unwrap();
    ring.seats[1] = Seat { set: set(&[1]), ack: true, doubt: true, first_fault: None };
    let before = ring.seats[1];
    ring.step(StepMarks::default(), &mut [0; 10]).unwrap();
    assert_eq!(ring.seats[1], before);
}

#[test]
fn a_step_is_taken_where_its_records_just_fit() {
    let marks = StepMarks { send: true, receive: SeatSet::EMPTY };
    let fresh = Ring::fresh(4).unwrap();

    let mut ring = fresh;
    let mut trail = [7; 15];
    assert_eq!(ring.step(marks, &mut trail), Ok(()));
    assert_eq!(trail, *b"\0\0\x01\0c\0\0\x02\0c\0\0\x03\0c");

    let mut ring = fresh;
    let mut trail = [7; 14];
    assert_eq!(ring.step(marks, &mut trail), Err(Reason::NoRoom.at(0)));
    assert_eq!((ring, trail), (fresh, [7; 14]));
}

#[test]
fn a_step_touches_no_byte_but_its_records() {
    let mut ring = Ring { records: 2, ..Ring::fresh(2).unwrap() };
    let mut trail = [7; 23];
    ring.step(StepMarks { send: true, receive: SeatSet::EMPTY }, &mut trail).unwrap();
    assert_eq!(trail, *b"\x07\x07\x07\x07\x07\x07\x07\x07\x07\x07\0\0\x01\0c\x07\x07\x07\x07\x07\x07\x07\x07");
    assert_eq!(ring.records, 3);
}

#[test]
fn a_step_checks_10_then_6_then_9_then_8() {
    let mut trail = [0; 5];
    let wrong = StepMarks { send: true, receive: SeatSet(1) };
    let good = StepMarks { send: true, receive: SeatSet::EMPTY };
    let mut late = Ring { time: MAX_TIME, ..Ring::fresh(4).unwrap() };
    let mut not_a_ring = Ring { records: 2, ..late };
    assert_eq!(not_a_ring.step(wrong, &mut trail), Err(Reason::NotARing.at(0)));
    assert_eq!(late.step(wrong, &mut trail), Err(Reason::WrongMark.at(MAX_TIME)));
    assert_eq!(late.step(good, &mut trail), Err(Reason::TimeIsUp.at(MAX_TIME)));
    let mut last = Ring { time: MAX_TIME - 1, ..late };
    assert_eq!(last.step(good, &mut trail), Err(Reason::NoRoom.at(MAX_TIME - 1)));
}

#[test]
fn a_receive_mark_for_the_owner_or_for_no_seat_is_refused_6() {
    for receive in [SeatSet(0b0001), SeatSet(0b1_0000), SeatSet(1 << 31)] {
        let mut ring = Ring::fresh(4).unwrap();
        let marks = StepMarks { send: false, receive };
        assert_eq!(ring.step(marks, &mut [0; 100]), Err(Reason::WrongMark.at(0)));
    }
}

#[test]
fn what_is_not_a_ring_is_refused_10() {
    let refused = Err(Reason::NotARing.at(0));
    assert_eq!(Ring::fresh(1).unwrap_err(), Reason::NotARing.at(0));
    assert_eq!(Ring::fresh(33).unwrap_err(), Reason::NotARing.at(0));
    assert_eq!(Ring::default().faults_outside(), refused);
    let good = Ring { time: 3, ..Ring::fresh(4).unwrap() };
    assert_eq!(good.faults_outside(), Ok(None));
    let spoil = |change: fn(&mut Ring)| {
        let mut ring = good;
        change(&mut ring);
        ring.faults_outside()
    };
    assert_eq!(spoil(|r| r.n = 33), refused);
    assert_eq!(spoil(|r| r.n = 3), refused);
    assert_eq!(spoil(|r| r.time = 4_097), refused);
    assert_eq!(spoil(|r| r.records = 1_025), refused);
    assert_eq!(spoil(|r| r.seats[0].set = SeatSet(0b1_0000)), refused);
    assert_eq!(spoil(|r| r.seats[4].set = SeatSet(1)), refused);
    assert_eq!(spoil(|r| r.seats[31].ack = true), refused);
    assert_eq!(spoil(|r| r.seats[4].doubt = true), refused);
    assert_eq!(spoil(|r| r.seats[4].first_fault = Some(0)), refused);
    assert_eq!(spoil(|r| r.seats[3].first_fault = Some(3)), refused);
    assert_eq!(spoil(|r| r.seats[3].first_fault = Some(2)), Ok(None));
    assert_eq!(spoil(|r| r.records = 1_024), Ok(None));
}

#[test]
fn set_and_records_of_every_holder_add_up_to_n() {
    let faults = [(1, Fault::Miss(4)), (7, Fault::Send), (9, Fault::Miss(0)), (9, Fault::Miss(2))];
    let (ring, trail) = ring_after(5, 40, &faults);
    for p in 0..5 {
        let own = records(&trail).iter().filter(|r| usize::from(r.1) == p).count();
        assert_eq!(ring.seats[p].set.size() + own, 5);
    }
}
