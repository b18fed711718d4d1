//! What may happen to a file on its way.
use crate::extremes::{any, any_count, any_flow};
use crate::layout::{mend, put, set_item_count, set_length, COUNTS, FLOW, HEAD, ITEM, VERSION};
use crate::random::Random;

pub fn noise(random: &mut Random, length: usize) -> Vec<u8> {
    (0..length).map(|_| random.next() as u8).collect()
}

/// From the first byte to behind the last one.
fn place(random: &mut Random, bytes: &[u8]) -> usize {
    random.below(bytes.len() as u64 + 1) as usize
}

/// The start of an item, or the end of the last one.
fn item_start(random: &mut Random, bytes: &[u8]) -> usize {
    let count = bytes.len().saturating_sub(HEAD) / ITEM;
    HEAD + ITEM * random.below(count as u64 + 1) as usize
}

/// Cuts inside the head, between items, inside an item, just before the end, or anywhere.
fn truncate(random: &mut Random, bytes: &mut Vec<u8>) {
    let end = match random.below(5) {
        0 => random.below(HEAD as u64 + 1) as usize,
        1 => item_start(random, bytes),
        2 => item_start(random, bytes) + random.below(ITEM as u64) as usize,
        3 => bytes.len().saturating_sub(random.within(1, 3) as usize),
        _ => place(random, bytes),
    };
    bytes.truncate(end);
}

/// One byte, a few, about an item, or zeros behind the last one.
fn append(random: &mut Random, bytes: &mut Vec<u8>) {
    let length = random.pick(&[1, 1, 2, 3, ITEM - 1, ITEM, ITEM, ITEM + 1, 2 * ITEM, 100]);
    let more = if random.one_in(2) { vec![0; length] } else { noise(random, length) };
    bytes.extend(more);
}

/// A little off, an item off, with its bytes the other way round, or as large as can be.
fn damage_length(random: &mut Random, bytes: &mut [u8]) {
    let right = bytes.len().saturating_sub(4) as u32;
    let wrong = match random.below(6) {
        0 => right.wrapping_add(random.pick(&[1, 4, 12, 16])),
        1 => right.wrapping_sub(random.pick(&[1, 4, 12, 16])),
        2 => right.swap_bytes(),
        3 => right | 1 << random.within(16, 31),
        4 => random.pick(&[0, 15, 16, 17, 786_436, 786_437, 0x7FFF_FFFF, 0x8000_0000, 0xFFFF_FFFB, 0xFFFF_FFFF]),
        _ => random.next() as u32,
    };
    put(bytes, 0, &wrong.to_be_bytes());
}

fn damage_version(random: &mut Random, bytes: &mut [u8]) {
    let version = if random.one_in(2) { 1 << random.below(8) ^ 1 } else { random.next() as u8 };
    put(bytes, VERSION, &[version]);
}

fn damage_flow(random: &mut Random, bytes: &mut [u8]) {
    let flow = if random.one_in(2) { any_flow(random) } else { random.pick(&[4, 5, 127, 128, 255]) };
    put(bytes, FLOW, &[flow]);
}

/// One of the six counts.
fn damage_count(random: &mut Random, bytes: &mut [u8]) {
    let count = if random.one_in(2) { any_count(random) } else { random.next() as u16 };
    put(bytes, COUNTS + 2 * random.below(6) as usize, &count.to_be_bytes());
}

/// A little off with the length left, or any number with the length as that number wants it.
fn damage_item_count(random: &mut Random, bytes: &mut [u8]) {
    let right = bytes.len().saturating_sub(HEAD) / ITEM;
    let wrong = match random.below(4) {
        0 => right + random.within(1, 3) as usize,
        1 => right.wrapping_sub(random.within(1, 3) as usize),
        2 => right.swap_bytes(),
        _ => random.next() as usize,
    };
    set_item_count(bytes, wrong);
    if random.one_in(4) {
        let length = (HEAD - 4 + ITEM * (wrong & 0xFFFF)) as u32;
        put(bytes, 0, &length.to_be_bytes());
    }
}

fn flip_bits(random: &mut Random, bytes: &mut [u8]) {
    for _ in 0..random.within(1, 8) {
        if !bytes.is_empty() {
            let at = random.below(bytes.len() as u64) as usize;
            bytes[at] ^= 1 << random.below(8);
        }
    }
}

/// From any place on.
fn scribble(random: &mut Random, bytes: &mut [u8]) {
    let at = place(random, bytes);
    let length = random.pick(&[1, 2, 4, 12, 60, bytes.len()]).min(bytes.len() - at);
    let new = noise(random, length);
    put(bytes, at, &new);
}

/// One number of one item.
fn damage_number(random: &mut Random, bytes: &mut [u8]) {
    let at = item_start(random, bytes) + 2 * random.below(6) as usize;
    put(bytes, at, &any(random).to_be_bytes());
}

/// Bytes put in or taken out, so that all behind them is out of step.
fn shift(random: &mut Random, bytes: &mut Vec<u8>) {
    let (at, length) = (place(random, bytes), random.within(1, 13) as usize);
    let (end, new) = match random.one_in(2) {
        true => (at, noise(random, length)),
        false => (bytes.len().min(at + length), Vec::new()),
    };
    bytes.splice(at..end, new);
}

/// An item once more, a few times, somewhere among the others.
fn repeat_item(random: &mut Random, bytes: &mut Vec<u8>) {
    let from = item_start(random, bytes);
    let Some(item) = bytes.get(from..from + ITEM) else { return };
    let copies = item.repeat(random.within(1, 4) as usize);
    let at = item_start(random, bytes);
    bytes.splice(at..at, copies);
}

/// The beginning of the file and the end of another one.
fn join(random: &mut Random, bytes: &mut Vec<u8>, other: &[u8]) {
    let (end, start) = match random.one_in(2) {
        true => (item_start(random, bytes), item_start(random, other)),
        false => (place(random, bytes), place(random, other)),
    };
    bytes.truncate(end);
    bytes.extend(other.get(start..).unwrap_or_default());
}

/// Damages a file in one to four ways; in half of the cases it is mended, so that the damage is not seen at once.
pub fn damage(random: &mut Random, bytes: &mut Vec<u8>, other: &[u8]) {
    let most = random.pick(&[1, 1, 1, 2, 4]);
    for _ in 0..random.within(1, most) {
        match random.below(13) {
            0 => truncate(random, bytes),
            1 => append(random, bytes),
            2 => damage_length(random, bytes),
            3 => damage_version(random, bytes),
            4 => damage_flow(random, bytes),
            5 => damage_count(random, bytes),
            6 => damage_item_count(random, bytes),
            7 => flip_bits(random, bytes),
            8 => scribble(random, bytes),
            9 => damage_number(random, bytes),
            10 => shift(random, bytes),
            11 => repeat_item(random, bytes),
            _ => join(random, bytes, other),
        }
    }
    match random.below(4) {
        0..=1 => mend(bytes),
        2 => set_length(bytes),
        _ => (),
    }
}
