//! Numbers at and past every limit among small ones, for the loops that look for a crash.
use crate::random::Random;

const EXTREMES: [i16; 24] = [
    -32768, -32767, -22001, -20001, -20000, -10001, -10000, -9999, -256, -2, -1, 0, 1, 2, 3, 127, 255, 9999, 10000,
    10001, 20000, 20001, 32766, 32767,
];

pub fn any(random: &mut Random) -> i16 {
    match random.below(4) {
        0 => random.next() as i16,
        1 => random.pick(&EXTREMES),
        _ => random.within(-4, 8) as i16,
    }
}

pub fn any_count(random: &mut Random) -> u16 {
    match random.below(100) {
        0 => random.next() as u16,
        1..=2 => random.pick(&[9999, 10000, 10001, 32767, 32768, 65535]),
        _ => random.below(5) as u16,
    }
}

pub fn any_counts(random: &mut Random) -> [u16; 3] {
    [0; 3].map(|_| any_count(random))
}

/// One of the four most of the time.
pub fn any_flow(random: &mut Random) -> u8 {
    if random.one_in(30) {
        random.next() as u8
    } else {
        random.below(4) as u8
    }
}

fn side(random: &mut Random) -> [i16; 3] {
    match random.below(40) {
        0 => [any(random), any(random), any(random)],
        1..=12 => {
            let start = if random.one_in(20) { any(random).clamp(-20000, 19000) } else { random.within(-3, 6) as i16 };
            [0, start, start + random.within(1, 3) as i16]
        }
        13 => [1, any(random), 0],
        _ => [1, random.within(1, 4) as i16, 0],
    }
}

pub fn items(random: &mut Random) -> Vec<i16> {
    let count = match random.below(1000) {
        0 => random.pick(&[1999, 2000, 2001]),
        1..=10 => random.within(50, 200),
        _ => random.within(0, 12),
    };
    let mut items: Vec<i16> = (0..2 * count).flat_map(|_| side(random)).collect();
    if random.one_in(20) {
        items.truncate(items.len().saturating_sub(random.below(7) as usize));
    }
    items
}
