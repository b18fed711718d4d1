//! Placement requests, beside the original and the plain reading.
use crate::lists::{smaller, states};
use crate::random::Random;
use crate::requests::{request, Request};
use crate::sides::Ours;
use crate::tally::{caught, shrink, Tally};
use original::{Axis, Matrix};

struct Buffers([Vec<i16>; 3]);

impl Buffers {
    /// Lent with numbers in every place, so that a place left alone can be told from one set to zero.
    fn new(lengths: [usize; 3]) -> Self {
        Buffers(lengths.map(|length| (0..length).map(|at| 71 + (at % 7) as i16).collect()))
    }
}

type Answer = Result<[[u16; 3]; 2], (u8, u16)>;

/// The number given (0: answered) and the marks, or what differs.
fn judge(request: &Request, ours: Ours) -> Result<(u8, Vec<i16>), String> {
    let Request { flow, counts, ref items, lengths } = *request;
    let mut plain_left = Buffers::new(lengths);
    let [answers, rows, columns] = &mut plain_left.0;
    let plain: Answer = plain::place(flow, counts[0], counts[1], items, answers, rows, columns);

    let mut our_left = Buffers::new(lengths);
    let [answers, rows, columns] = &mut our_left.0;
    let our = caught("ours", || ours.place(flow, counts, items, answers, rows, columns))?;
    if let Some(our) = our {
        if our != plain {
            return Err(format!("plain {plain:?}, ours {our:?}"));
        }
        for (name, (plain, our)) in
            ["answers", "row list", "column list"].iter().zip(plain_left.0.iter().zip(&our_left.0))
        {
            if plain != our {
                return Err(format!("{name}: plain {}, ours {}", shown(plain), shown(our)));
            }
        }
    }

    // A refusal for want of room is ours alone: the original's lists grow, and its lines are compared all the same.
    let (lines, grown) = match plain {
        Ok(grown) => {
            (plain_left.0[0].chunks(5).take(items.len() / 6).map(|answer| answer[..4].to_vec()).collect(), grown)
        }
        Err((7 | 8, _)) => walked(request),
        Err((number, _)) => return Ok((number, Vec::new())),
    };
    let good: Vec<[i16; 6]> = items.chunks(6).map(|item| item.try_into().expect("six numbers")).collect();
    let original = caught("original", || original::place(flow, counts[0], counts[1], &good))?;
    let at = (0..lines.len()).find(|&at| lines[at] != original.lines[at]);
    if let Some(at) = at {
        return Err(format!("item {at}: plain {:?}, original {:?}", lines[at], original.lines[at]));
    }
    let original_grown = [original.matrix.counts(Axis::Horizontal), original.matrix.counts(Axis::Vertical)];
    if grown != original_grown {
        return Err(format!("counts: plain {grown:?}, original {original_grown:?}"));
    }
    match plain {
        Ok(_) => {
            cells(&plain_left, &original.matrix)?;
            Ok((0, plain_left.0[0].chunks(5).take(good.len()).map(|answer| answer[4]).collect()))
        }
        Err((number, _)) => Ok((number, Vec::new())),
    }
}

fn shown(numbers: &[i16]) -> String {
    let used = numbers.len() - numbers.iter().rev().take_while(|&&number| number == 0).count();
    format!("{:?} and {} zeros", &numbers[..used.min(60)], numbers.len() - used)
}

fn walked(request: &Request) -> (Vec<Vec<i16>>, [[u16; 3]; 2]) {
    let walk = plain::walk(request.flow, request.counts[0], request.counts[1], &request.items);
    let mut lines = vec![Vec::new(); walk.tiles.len()];
    for tile in &walk.tiles {
        lines[tile.index] = tile.spans.iter().flat_map(|span| [span.0 as i16, span.1 as i16]).collect();
    }
    (lines, walk.counts)
}

/// Records read to the end: above this the board's other requests tell the same.
const READ: usize = 100;

/// The lists beside the original's matrix: the end of each record, and every state on a small board.
fn cells(left: &Buffers, matrix: &Matrix) -> Result<(), String> {
    let [_, rows, columns] = &left.0;
    for (axis, list) in [(Axis::Horizontal, rows), (Axis::Vertical, columns)] {
        for record in list.chunks(4).take(READ).filter(|record| record[3] != 0) {
            let (track, start) = (record[0], record[1]);
            let end = matrix.line_area_collision_jump(axis, (start, start + 1), (track, track + 1));
            if end != Some(record[2]) {
                return Err(format!("record {record:?} along {axis:?}: the original's ends at {end:?}"));
            }
        }
    }
    let size = |axis: Axis| matrix.counts(axis).iter().map(|&count| count as usize).sum::<usize>();
    if size(Axis::Horizontal) * size(Axis::Vertical) <= 200 {
        states(true, rows, matrix)?;
        states(false, columns, matrix)?;
    }
    Ok(())
}

/// The requests that single changes make of one.
fn tries(request: &Request) -> Vec<Request> {
    let mut tries: Vec<Request> = Vec::new();
    let mut with = |change: &dyn Fn(&mut Request)| {
        let mut less = request.clone();
        change(&mut less);
        tries.push(less);
    };
    let count = request.items.len() / 6;
    // Halves first: a request of very many items is made small in few steps.
    for at in [0, count / 2] {
        if count > 8 {
            with(&|less| drop(less.items.drain(6 * at..6 * (at + count / 2))));
        }
    }
    for at in 0..count.min(40) {
        with(&|less| drop(less.items.drain(6 * at..6 * at + 6)));
    }
    for at in 0..request.items.len().min(60) {
        for value in smaller(request.items[at]) {
            with(&|less| less.items[at] = value);
        }
    }
    for at in 0..6 {
        for value in smaller(request.counts[at / 3][at % 3].min(32767) as i16) {
            with(&|less| less.counts[at / 3][at % 3] = value as u16);
        }
    }
    for at in 0..3 {
        let length = request.lengths[at];
        for value in [0, length / 2, length.saturating_sub(4), length.saturating_sub(1)] {
            if value < length {
                with(&|less| less.lengths[at] = value);
            }
        }
    }
    if request.flow > 0 {
        with(&|less| less.flow -= 1);
    }
    tries
}

/// Compares `count` requests.
pub fn run(random: &mut Random, count: u64, ours: Ours) -> Tally {
    let mut tally = Tally::default();
    let mut marks = [0; 8];
    while tally.compared < count {
        let request = request(random);
        tally.compared += 1;
        match judge(&request, ours) {
            Ok((number, given)) => {
                tally.given[number as usize] += 1;
                given.iter().for_each(|&mark| marks[mark as usize] += 1);
            }
            Err(_) => {
                let small =
                    if tally.shows() { shrink(request, tries, |less| judge(less, ours).is_err()) } else { request };
                tally.differs(|| format!("{}: {small:?}", judge(&small, ours).unwrap_err()));
            }
        }
    }
    tally.note = format!(", items by mark {marks:?}");
    tally
}
