//! A call that goes on by one read at a time.

mod common;

use common::{Scripted, BOARD};
use huskerivory::{
    Ack, Address, Description, Error, Operation, Outcome, Refusal, Running, SavedCall,
};
use std::task::Poll;

const WRITE_TWO: [Operation; 1] = [Operation::write(2)];
/// The answers of document 01's worked run.
const ANSWERS: [u32; 5] = [1, 0x0202_00A0, 3, 3, 0x21];

fn worked() -> Description {
    Description::transaction(BOARD)
}

#[test]
fn one_read_to_a_poll() {
    let mut registers = Scripted::new(&ANSWERS);
    let mut buffer = [0x12, 0x34];
    let mut running = Running::begin(worked(), &WRITE_TWO, &mut buffer).unwrap();
    let expected: [&[&str]; 6] = [
        &["w 04 020220A0"],
        &["r 18 00000001"],
        &["r 04 020200A0"],
        &["r 18 00000003", "w 28 00000012"],
        &["r 18 00000003", "w 28 00000034"],
        &["r 18 00000021", "w 1C 00000020"],
    ];
    let awaited = [
        None,
        Some(0x18),
        Some(0x04),
        Some(0x18),
        Some(0x18),
        Some(0x18),
    ];
    let mut seen = 0;
    for (i, (accesses, awaited)) in expected.iter().zip(awaited).enumerate() {
        assert_eq!(running.awaited(), awaited);
        let poll = running.poll(&mut registers);
        assert_eq!(poll.is_ready(), i == 5);
        assert_eq!(&registers.accesses()[seen..], *accesses);
        seen = registers.accesses().len();
        assert_eq!(running.saved().accesses() as usize, seen);
    }
    for _ in 0..2 {
        assert_eq!(
            running.poll(&mut registers),
            Poll::Ready(Ok(Outcome::Done(0)))
        );
        assert_eq!(running.awaited(), None);
    }
    assert_eq!(registers.take().len(), 9);
}

#[test]
fn no_more_than_six_accesses_to_a_poll() {
    let config = huskerivory::TargetConfig::new(0x42).secondary_address(0x21);
    let description = Description::new(common::TIMING, Some(config));
    let mut registers = Scripted::new(&[1]);
    let mut running = Running::begin(description, &[], &mut []).unwrap();
    assert_eq!(
        running.poll(&mut registers),
        Poll::Ready(Ok(Outcome::Done(0)))
    );
    assert_eq!(registers.take().len(), 6);
}

#[test]
fn two_calls_in_turn() {
    let mut out = Scripted::new(&ANSWERS);
    let mut events = Scripted::new(&[1, 1, 1, 1, 1, 0x20]);
    let mut buffer = [0x12, 0x34];
    let mut sending = Running::begin(worked(), &WRITE_TWO, &mut buffer).unwrap();
    let mut waiting = Running::begin(Description::wait_for_stop(Ack::Auto), &[], &mut []).unwrap();
    for _ in 0..5 {
        assert_eq!(sending.poll(&mut out), Poll::Pending);
        assert_eq!(waiting.poll(&mut events), Poll::Pending);
    }
    assert_eq!(sending.poll(&mut out), Poll::Ready(Ok(Outcome::Done(0))));
    assert_eq!(waiting.poll(&mut events), Poll::Ready(Ok(Outcome::Done(0))));
    assert_eq!((out.take().len(), events.take().len()), (9, 7));
}

#[test]
fn an_error_is_said_again() {
    let mut registers = Scripted::new(&[0x100]);
    let mut buffer = [7];
    let description = Description::read(Ack::Auto);
    let mut running = Running::begin(description, &[], &mut buffer).unwrap();
    for _ in 0..2 {
        assert_eq!(running.poll(&mut registers), Poll::Ready(Err(Error::Bus)));
    }
    assert_eq!(running.buffer(), [7]);
    assert_eq!(registers.take(), ["r 18 00000100", "w 1C 00000100"]);
}

/// The worked run, saved while it awaits its second answer.
fn saved_half_way(buffer: &mut [u8]) -> SavedCall {
    let mut registers = Scripted::new(&ANSWERS);
    let mut running = Running::begin(worked(), &WRITE_TWO, buffer).unwrap();
    for _ in 0..2 {
        assert_eq!(running.poll(&mut registers), Poll::Pending);
    }
    running.saved()
}

#[test]
fn a_saved_call_is_taken_up() {
    let mut buffer = [0x12, 0x34];
    let saved = saved_half_way(&mut buffer);
    assert_eq!(
        format!("{saved:?}"),
        "SavedCall { call: 7, piece: 0, byte: 0, word: 0, accesses: 2, outcome: 0, value: 0, step: 3, out: 0 }"
    );
    let words = worked().to_words();
    assert_eq!(words, [7, 0x50, 0, 0, 0, 0, 0, 0, u32::MAX, u32::MAX]);

    let mut registers = Scripted::new(&ANSWERS[1..]);
    let description = Description::from_words(words);
    let mut running = Running::resume(description, &WRITE_TWO, &mut buffer, saved).unwrap();
    while running.poll(&mut registers).is_pending() {}
    assert_eq!(registers.take().len(), 7);
}

#[test]
fn damaged_bytes_are_refused() {
    let mut buffer = [0x12, 0x34];
    let saved = saved_half_way(&mut buffer);
    let damages: [&[(usize, u8)]; 8] = [
        &[(0, 8)],
        &[(4, 1)],
        &[(8, 4)],
        &[(8, 2), (28, 5)],
        &[(20, 10)],
        &[(20, 1), (24, 1)],
        &[(28, 21)],
        &[(28, 46)],
    ];
    for damage in damages {
        let mut bytes = saved.to_bytes();
        for &(place, byte) in damage {
            bytes[place] = byte;
        }
        let damaged = SavedCall::from_bytes(bytes);
        assert_ne!(damaged, saved);
        let refused = Running::resume(worked(), &WRITE_TWO, &mut buffer, damaged);
        assert_eq!(refused.map(|_| ()), Err(Refusal(13)), "{damage:?}");
    }
    let refused = Running::resume(worked(), &WRITE_TWO, &mut buffer, SavedCall::NONE);
    assert_eq!(refused.map(|_| ()), Err(Refusal(13)));
    assert_eq!(buffer, [0x12, 0x34]);
}

/// A call that has begun, or has ended, with another number of bytes put out, taken up.
fn with_out(
    description: Description,
    operations: &[Operation],
    ended: bool,
    out: u32,
) -> Result<(), Refusal> {
    let mut buffer = [0x12, 0x34];
    let begun = Running::begin(description, operations, &mut buffer)?;
    let mut bytes = begun.saved().to_bytes();
    if ended {
        bytes[28..32].fill(0);
    }
    bytes[32..].copy_from_slice(&out.to_le_bytes());
    let saved = SavedCall::from_bytes(bytes);
    Running::resume(description, operations, &mut buffer, saved).map(|_| ())
}

/// Document 02, R-6: it is one more than there are bytes, at most, in a manual write that has not
/// ended. Nowhere else is it looked at.
#[test]
fn bytes_put_out_are_bounded_in_a_manual_write() {
    for description in [
        Description::write(Ack::Manual),
        Description::wait_for_target_write(Ack::Manual),
    ] {
        for out in [0, 2, 3] {
            assert_eq!(with_out(description, &[], false, out), Ok(()));
        }
        for out in [4, 0x100, 0x1_0003, u32::MAX] {
            let refused = with_out(description, &[], false, out);
            assert_eq!(refused, Err(Refusal(13)), "{out} bytes put out");
            assert_eq!(with_out(description, &[], true, out), Ok(()));
        }
    }
    for out in [3, 4, u32::MAX] {
        assert_eq!(with_out(worked(), &WRITE_TWO, false, out), Ok(()));
        for description in [
            Description::write(Ack::Auto),
            Description::wait_for_target_write(Ack::Auto),
            Description::read(Ack::Manual),
            Description::wait_for_target_read(Ack::Manual),
            Description::wait_for_event(Ack::Manual),
        ] {
            assert_eq!(with_out(description, &[], false, out), Ok(()));
        }
    }
}

#[test]
fn another_description_is_refused() {
    let mut buffer = [0x12, 0x34];
    let saved = saved_half_way(&mut buffer);
    let mut resume = |description, operations| {
        Running::resume(description, operations, &mut buffer, saved).map(|_| ())
    };
    let wide = Description::transaction(Address::SevenBit(0x80));
    assert_eq!(resume(wide, &WRITE_TWO), Err(Refusal(8)));
    assert_eq!(resume(worked(), &[]), Err(Refusal(10)));
    assert_eq!(resume(Description::reset(), &[]), Err(Refusal(13)));
    assert_eq!(resume(worked(), &WRITE_TWO), Ok(()));
}

#[test]
fn refusals_have_words() {
    let no_such_call = Description::from_words([30, 0, 0, 0, 0, 0, 0, 0, 0, 0]);
    let refusal = Running::begin(no_such_call, &[], &mut []).map(|_| ());
    assert_eq!(refusal, Err(Refusal(12)));
    assert_eq!(
        Error::Refused(Refusal(12)).to_string(),
        "refused 12 no such call"
    );
    assert_eq!(Refusal(9).words(), "unknown", "9 is out of use");
    assert_eq!(Refusal::BUFFER.to_string(), "refused 11 buffer");
    assert_eq!(Refusal::PAGE.to_string(), "refused 15 page");
    assert_eq!(Refusal::BAD_BANDS.to_string(), "refused 16 bad bands");
    assert_eq!(Refusal::NO_BAND.to_string(), "refused 17 no band");
}
