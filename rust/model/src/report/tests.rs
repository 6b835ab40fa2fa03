//! Where a report's numbers stand.

use super::*;
use crate::numbers::number_at;
use crate::task::Record;

fn sample() -> Report {
    let mut registers = [Value::Int(0); REGISTERS];
    registers[0] = Value::Int(-1);
    registers[1] = Value::Label(7);
    registers[15] = Value::Record(Record {
        continuation: 2,
        depth: u32::MAX,
    });
    Report {
        end: Some(End::Fault(38)),
        picks: u64::MAX,
        work: 9,
        span: 7,
        registers,
    }
}

#[test]
fn numbers_and_their_places() {
    let bytes = bytes(&sample());
    assert_eq!((bytes.len(), BYTES), (424, 424));
    let numbers: Vec<u64> = (0..NUMBERS).map(|at| number_at(&bytes, at)).collect();
    assert_eq!(numbers[..5], [2, 38, u64::MAX, 9, 7]);
    assert_eq!(numbers[5..14], [0, u64::MAX, 0, 1, 7, 0, 0, 0, 0]);
    assert_eq!(numbers[50..], [2, 2, u32::MAX.into()]);
}

#[test]
fn the_rounds_come_last() {
    let mut dispatched = [0xa5; DISPATCH_BYTES];
    write_dispatched(&sample(), u64::MAX - 1, &mut dispatched);
    assert_eq!(DISPATCH_BYTES, 432);
    assert_eq!(dispatched[..BYTES], bytes(&sample()));
    assert_eq!(number_at(&dispatched, NUMBERS), u64::MAX - 1);
}
