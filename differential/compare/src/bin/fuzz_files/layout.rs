//! Where a file has its parts. Everything here takes files of any length, since a damaged one may end anywhere.
use crate::requests::Request;

/// Bytes before the first item: length, version, flow, six counts, item count.
pub const HEAD: usize = 20;
/// Bytes of an item.
pub const ITEM: usize = 12;
pub const VERSION: usize = 4;
pub const FLOW: usize = 5;
/// The six counts are from here to the item count.
pub const COUNTS: usize = 6;
const ITEM_COUNT: usize = 18;

/// Writes over what is there, as far as there is something.
pub fn put(bytes: &mut [u8], at: usize, new: &[u8]) {
    for (old, new) in bytes.iter_mut().skip(at).zip(new) {
        *old = *new;
    }
}

/// Makes the length field say what the file has.
pub fn set_length(bytes: &mut [u8]) {
    let length = bytes.len().saturating_sub(4) as u32;
    put(bytes, 0, &length.to_be_bytes());
}

pub fn set_item_count(bytes: &mut [u8], count: usize) {
    put(bytes, ITEM_COUNT, &(count as u16).to_be_bytes());
}

/// Cuts off what is no whole item and makes version, item count and length right, so that the rest is looked at.
pub fn mend(bytes: &mut Vec<u8>) {
    let count = bytes.len().saturating_sub(HEAD) / ITEM;
    bytes.resize(HEAD + ITEM * count, 0);
    bytes[VERSION] = 1;
    set_item_count(bytes, count);
    set_length(bytes);
}

/// The file of a request; numbers behind the last whole item are written as well.
pub fn written(request: &Request) -> Vec<u8> {
    let mut bytes = vec![0, 0, 0, 0, 1, request.flow];
    request.counts.concat().iter().for_each(|count| bytes.extend(count.to_be_bytes()));
    bytes.extend([0, 0]);
    request.items.iter().for_each(|number| bytes.extend(number.to_be_bytes()));
    set_item_count(&mut bytes, request.items.len() / 6);
    set_length(&mut bytes);
    bytes
}
