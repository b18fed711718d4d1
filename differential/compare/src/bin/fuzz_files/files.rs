//! The file of an execution: a whole one, one that was damaged, or bytes that never were a file.
use crate::damage::{damage, noise};
use crate::extremes::{any_counts, any_flow, items};
use crate::layout::{set_item_count, set_length, written, ITEM};
use crate::random::Random;
use crate::requests::{by_share, good, many, of_any_shape, spoil, Request, Shape};

/// Up to as many items as may be placed, close together, so that the lists have room for most boards.
const CROWD: Shape = Shape { items: (100, 2000), lines: (-20, 60), longest: 4, edge: 0, counts: 30, large: 0 };

/// Item counts over the limit: the first ones, some about as long as what a pipe holds, the largest ones.
const TOO_MANY: [usize; 12] = [2001, 2002, 5459, 5460, 5461, 32767, 32768, 65534, 65535, 65535, 65535, 65535];

fn spoiled(random: &mut Random) -> Request {
    let mut request = of_any_shape(random);
    spoil(random, &mut request);
    request
}

/// Numbers up to what 16 bits hold, where a good request keeps inside the limits.
fn extreme(random: &mut Random) -> Request {
    let counts = [any_counts(random), any_counts(random)];
    Request { flow: any_flow(random), counts, items: items(random), lengths: [0; 3] }
}

fn crowd(random: &mut Random) -> Request {
    if random.one_in(2) {
        return good(random, &CROWD);
    }
    let (count, longest) = (random.within(100, 2000), random.within(1, 12));
    many(random, count, longest)
}

/// A file that agrees with itself most of the time, though not always one that can be answered.
fn whole(random: &mut Random, boards: &[Vec<u8>]) -> Vec<u8> {
    match random.below(2000) {
        // A crowd takes as long as many others, so it is rare.
        0 => written(&crowd(random)),
        1..=200 if !boards.is_empty() => boards[random.below(boards.len() as u64) as usize].clone(),
        1..=1100 => written(&by_share(random)),
        1101..=1300 => written(&of_any_shape(random)),
        1301..=1500 => written(&spoiled(random)),
        _ => written(&extreme(random)),
    }
}

/// More items than may be placed, or more bytes than the program reads.
fn large(random: &mut Random) -> Vec<u8> {
    let item = if random.one_in(2) { vec![0, 1, 0, 1, 0, 0, 0, 1, 0, 1, 0, 0] } else { noise(random, ITEM) };
    let count = random.pick(&TOO_MANY);
    let mut bytes = written(&Request { items: Vec::new(), ..extreme(random) });
    bytes.extend(item.repeat(count));
    set_item_count(&mut bytes, count);
    set_length(&mut bytes);
    match random.below(4) {
        0..=1 => (),
        2 => bytes.truncate(bytes.len() - random.within(1, 13) as usize),
        _ => {
            let more = random.pick(&[1, 2, 12, 13, 65_536, 400_000]);
            bytes.extend(vec![random.next() as u8; more]);
        }
    }
    if random.one_in(2) {
        set_length(&mut bytes);
    }
    bytes
}

/// No file at all: nothing, or random bytes, some with a length field that is right.
fn bytes_only(random: &mut Random) -> Vec<u8> {
    let length = match random.below(4) {
        0 => 0,
        1 => random.below(24),
        2 => random.below(200),
        _ => random.below(3000),
    };
    let mut bytes = noise(random, length as usize);
    if random.one_in(2) {
        set_length(&mut bytes);
    }
    bytes
}

/// The file of an execution. A third of the files are whole.
pub fn file(random: &mut Random, boards: &[Vec<u8>]) -> Vec<u8> {
    match random.below(1000) {
        0..=1 => large(random),
        2..=19 => bytes_only(random),
        20..=349 => whole(random, boards),
        _ => {
            let (mut bytes, other) = (whole(random, boards), whole(random, boards));
            damage(random, &mut bytes, &other);
            bytes
        }
    }
}
