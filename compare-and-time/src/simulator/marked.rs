//! The marked cases P1 to P15 of docs/RULES.md and the sample report, on the simulator itself: the other side of every
//! comparison has to be right first.

use super::banks::{Asked, BankCall, Banks};
use super::file::report;
use super::row::{Call, Row};
use super::trace::{count, list};
use super::{refusal, Refusal};

const T: [u16; 12] = [2, 3, 2, 1, 5, 2, 4, 5, 3, 2, 5, 2];

fn hits(trace: &[u16], policy: u32, k: usize) -> Vec<u32> {
    let mut table = vec![9; k];
    count(trace, policy, k, &mut table).unwrap();
    table
}

pub fn hold() {
    traces();
    refusals();
    row();
    incident();
    orders_under_banks();
    cut_leaves_the_front();
    sample_report();
}

fn traces() {
    for policy in 0..3 {
        assert_eq!(hits(&[], policy, 5), [0; 5], "P1");
        assert_eq!(hits(&[7], policy, 1), [0], "P2");
        assert_eq!(hits(&[7, 7], policy, 1), [1], "P3");
    }
    assert_eq!(hits(&T, 0, 5), [0, 2, 5, 6, 7], "P4");
    assert_eq!(list(&T, 0, 5, 12).unwrap().first_difference(&[2, 5, 3, 4, 1]), None, "P4");
    assert_eq!(hits(&T, 1, 5), [0, 4, 5, 6, 7], "P5");
    assert_eq!(list(&T, 1, 5, 12).unwrap().first_difference(&[2, 5, 3, 1, 4]), None, "P5");
    assert_eq!(hits(&T, 2, 5), [0, 5, 6, 7, 7], "P6");
    assert_eq!(list(&T, 2, 5, 12).unwrap().first_difference(&[2, 5, 3, 4, 1]), None, "P6");
}

fn refusals() {
    let mut table = [0; 64];
    assert_eq!(count(&[7, 1024], 0, 5, &mut table), Err(Refusal { number: 3, place: 1 }), "P7");
    assert_eq!(count(&[7, 1023], 0, 5, &mut table), Ok(()), "P7");
    for k in [0, 65] {
        assert_eq!(count(&[7], 0, k, &mut table), Err(refusal(1)), "P8");
        assert_eq!(count(&[1024], 0, k, &mut table), Err(refusal(1)), "P8");
    }
    assert_eq!(count(&[7], 0, 64, &mut table[..63]), Err(refusal(4)), "P8");
}

fn row() {
    let mut row = Row::fresh();
    for (call, frame) in [(Call::Put, 4), (Call::Put, 9), (Call::Touch, 4)] {
        assert_eq!(row.call(call, frame), Ok(0), "P9");
    }
    assert_eq!(row.victim(), Ok(9), "P9");
    assert_eq!((row.call(Call::Start, 9), row.victim()), (Ok(0), Ok(4)), "P10");
    assert_eq!((row.call(Call::Start, 4), row.victim()), (Ok(0), Err(refusal(27))), "P10");
    assert_eq!(row.call(Call::Drop, 9), Err(refusal(23)), "P10");

    let mut row = Row::fresh();
    row.call(Call::Put, 5).unwrap();
    for _ in 0..63 {
        assert_eq!(row.call(Call::Touch, 5), Ok(0), "P11");
    }
    assert_eq!(row.call(Call::Touch, 5), Ok(64), "P11");

    let mut row = Row::fresh();
    for frame in 0..32 {
        assert_eq!(row.call(Call::Put, frame), Ok(0), "P12");
    }
    assert_eq!(row.call(Call::Put, 40), Err(refusal(25)), "P12");
    row.call(Call::Drop, 3).unwrap();
    assert_eq!(row.call(Call::Put, 40), Ok(0), "P12");
}

/// Each call is answered with the number beside it, 0 for an accepted one.
fn banks_say(case: &str, banks: &mut Banks, calls: &[(Asked, u8)]) {
    for &(asked, number) in calls {
        let wanted = if number == 0 { Ok(()) } else { Err(refusal(number)) };
        assert_eq!(banks.ask(asked).map(|_| ()), wanted, "{case}: {asked}");
    }
}

/// A bank is cut only after the transfer in it has ended, and then all that lay in it is gone.
fn incident() {
    let (put, start, end) = (frame(Call::Put, 20), frame(Call::Start, 20), frame(Call::End, 20));
    let (close, cut) = (Asked::Bank(BankCall::Close, 1), Asked::Bank(BankCall::Cut, 1));
    let mut banks = Banks::fresh();
    banks_say("P13", &mut banks, &[(put, 0), (start, 0), (close, 0), (cut, 31), (end, 0)]);
    assert_eq!(banks.victim(), Err(refusal(27)), "P13: the only frame is idle, and its bank is closing");
    banks_say("P13", &mut banks, &[(cut, 0), (frame(Call::Touch, 20), 22), (put, 33)]);
    assert_eq!(banks.victim(), Err(refusal(26)), "P13");
}

fn frame(call: Call, frame: u32) -> Asked {
    Asked::Frame(call, frame)
}

fn orders_under_banks() {
    let (put, start, end) = (frame(Call::Put, 20), frame(Call::Start, 20), frame(Call::End, 20));
    let [close, cut, open] = [BankCall::Close, BankCall::Cut, BankCall::Open].map(|call| Asked::Bank(call, 1));
    let mut banks = Banks::fresh();
    banks_say("P14", &mut banks, &[(put, 0), (start, 0), (cut, 30), (open, 30), (close, 0), (close, 30)]);
    banks_say("P14", &mut banks, &[(start, 33), (frame(Call::Start, 21), 33), (put, 33), (frame(Call::Touch, 20), 0)]);
    banks_say("P14", &mut banks, &[(cut, 31), (end, 0), (cut, 0), (close, 30), (cut, 30), (frame(Call::Put, 64), 20)]);
    let (fourth, last) = (Asked::Bank(BankCall::Close, 4), Asked::Bank(BankCall::Cut, 255));
    banks_say("P14", &mut banks, &[(open, 0), (put, 0), (fourth, 32), (last, 32)]);
}

fn cut_leaves_the_front() {
    let mut banks = Banks::fresh();
    banks_say("P15", &mut banks, &[(frame(Call::Put, 7), 0)]);
    banks_say("P15", &mut banks, &[(frame(Call::Touch, 7), 0); 63]);
    let cut_and_open = [BankCall::Close, BankCall::Cut, BankCall::Open].map(|call| (Asked::Bank(call, 0), 0));
    banks_say("P15", &mut banks, &cut_and_open);
    assert_eq!(banks.ask(frame(Call::Put, 3)), Ok(64), "P15");
    assert_eq!(banks.victim(), Ok(3), "P15");
}

fn sample_report() {
    let numbers = [&[3, 1, 3, 4, 12][..], &T].concat();
    let bytes: Vec<u8> = numbers.iter().flat_map(|number| number.to_le_bytes()).collect();
    let text = "capacity lru lfu opt\n1 0 0 0\n3 5 5 6\n4 6 6 7\nreferences 12\n";
    assert_eq!(report(&bytes), text, "the sample report");
}
