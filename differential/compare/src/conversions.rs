//! The two line conversions and the index in the track vector, over all lines.
use crate::sides::Ours;
use crate::tally::{caught, Tally};

const EXPLICIT: [u16; 17] = [0, 1, 2, 3, 9, 10, 99, 100, 999, 1000, 9998, 9999, 10000, 10001, 32767, 32768, 65535];
const NEGATIVE: [u16; 11] = [0, 1, 2, 3, 100, 9999, 10000, 10001, 32767, 32768, 65535];
const REST: [(u16, u16); 14] = [
    (0, 0),
    (1, 0),
    (0, 1),
    (2, 3),
    (100, 7),
    (0, 10000),
    (10000, 0),
    (5000, 5000),
    (9999, 1),
    (5000, 5001),
    (10001, 0),
    (32767, 1),
    (1, 65535),
    (65535, 65535),
];

/// All lines, those near 0 first, so that the first difference is a small one.
fn lines() -> impl Iterator<Item = i16> {
    (0..=32767).flat_map(|line: i16| [line, -1 - line])
}

type Line = Result<i16, u8>;

fn hold<T: PartialEq + std::fmt::Debug>(
    tally: &mut Tally,
    call: impl FnOnce() -> String,
    plain: T,
    others: [(&str, Result<Option<T>, String>); 2],
) {
    tally.compared += 1;
    for (side, answer) in others {
        match answer {
            Ok(Some(answer)) if answer != plain => {
                return tally.differs(|| format!("{}: plain {plain:?}, {side} {answer:?}", call()))
            }
            Err(words) => return tally.differs(|| format!("{}: plain {plain:?}, {words}", call())),
            _ => (),
        }
    }
}

pub fn run(ours: Ours) -> [Tally; 3] {
    let (mut there, mut back, mut index) = (Tally::default(), Tally::default(), Tally::default());
    for explicit in EXPLICIT {
        for line in lines() {
            // The original is asked only where the rules give an answer; elsewhere it panics or has no limit.
            let plain: Line = plain::origin_zero_line(line, explicit);
            let original = plain.is_ok().then_some(());
            let original = caught("original", || original.map(|()| Ok(original::origin_zero_line(line, explicit))));
            let our = caught("ours", || ours.origin_zero_line(line, explicit));
            let call = || format!("CSS line {line} with {explicit} explicit tracks");
            hold(&mut there, call, plain, [("original", original), ("ours", our)]);

            let plain: Line = plain::css_line(line, explicit);
            let original = plain.is_ok().then_some(());
            let original = caught("original", || original.map(|()| Ok(original::css_line(line, explicit))));
            let our = caught("ours", || ours.css_line(line, explicit));
            let call = || format!("origin-zero line {line} with {explicit} explicit tracks");
            hold(&mut back, call, plain, [("original", original), ("ours", our)]);
        }
    }
    for negative in NEGATIVE {
        for (explicit, positive) in REST {
            let counts = [negative, explicit, positive];
            for line in lines() {
                let plain = plain::track_index(counts, line);
                let original = plain.is_ok().then_some(());
                let original = caught("original", || {
                    original.map(|()| Ok(original::track_index(counts, line).map(|index| index as u32)))
                });
                let our = caught("ours", || ours.track_index(counts, line));
                let call = || format!("index of line {line} with counts {counts:?}");
                hold(&mut index, call, plain, [("original", original), ("ours", our)]);
            }
        }
    }
    [there, back, index]
}
