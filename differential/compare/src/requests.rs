//! Placement requests of every shape, for each program that needs some.
use crate::random::Random;

#[derive(Clone, Debug)]
pub struct Request {
    pub flow: u8,
    pub counts: [[u16; 3]; 2],
    pub items: Vec<i16>,
    /// Lengths of the answer buffer, the row list and the column list.
    pub lengths: [usize; 3],
}

const EDGES: [i32; 15] =
    [-20000, -19999, -10002, -10001, -10000, -9999, -1, 0, 1, 9998, 9999, 10000, 10001, 10002, 20000];

/// What a request's numbers are drawn from.
pub struct Shape {
    pub items: (i32, i32),
    /// Lowest and highest fixed line.
    pub lines: (i32, i32),
    pub longest: i32,
    /// In how many of 100 sides a fixed line or a span is one of the edges.
    pub edge: u64,
    pub counts: i32,
    /// In how many of 100 counts a count is near the limit.
    pub large: u64,
}

fn fixed(random: &mut Random, shape: &Shape) -> [i16; 3] {
    loop {
        let mut line = || match random.below(100) < shape.edge {
            true => random.pick(&EDGES),
            false => random.within(shape.lines.0, shape.lines.1),
        };
        let (a, b) = (line(), line());
        // A side over most of the limited grid is slow in the original, so it is kept rare.
        if a != b && ((a - b).abs() < 200 || random.one_in(10)) {
            return [0, a.min(b) as i16, a.max(b) as i16];
        }
    }
}

fn spanned(random: &mut Random, shape: &Shape) -> [i16; 3] {
    let edge = random.below(300) < shape.edge;
    let span = if edge { random.pick(&[5000, 9998, 9999, 10000]) } else { random.within(1, shape.longest) };
    [1, span as i16, 0]
}

fn counts(random: &mut Random, shape: &Shape) -> [u16; 3] {
    let mut count = || match random.below(100) < shape.large {
        true => random.pick(&[9990, 9998, 9999, 10000]),
        false => random.within(0, shape.counts) as u16,
    };
    let (negative, explicit, positive) = (count(), count(), count());
    [negative, explicit, positive.min(10000 - explicit)]
}

pub fn good(random: &mut Random, shape: &Shape) -> Request {
    let flow = random.below(4) as u8;
    let count = random.within(shape.items.0, shape.items.1);
    // Mixes from nearly all fixed to nearly none.
    let fixed_in_100 = random.pick(&[10, 30, 50, 80]);
    let mut items = Vec::with_capacity(6 * count as usize);
    for _ in 0..2 * count {
        let side = random.below(100) < fixed_in_100;
        items.extend(if side { fixed(random, shape) } else { spanned(random, shape) });
    }
    let counts = [counts(random, shape), counts(random, shape)];
    Request { flow, counts, items, lengths: [0; 3] }
}

/// Many tiles that run past the end of the limited grid, if their spans are long enough.
pub fn many(random: &mut Random, count: i32, longest: i32) -> Request {
    let flow = random.below(4) as u8;
    let row_flow = flow == 0 || flow == 2;
    let explicit = random.within(0, 4) as u16;
    let along = random.within(0, 2);
    let mut items = Vec::new();
    for _ in 0..count {
        let primary = match random.below(12) {
            0..=9 => [0, along as i16, along as i16 + 1],
            _ => [1, random.within(1, 2) as i16, 0],
        };
        let secondary = [1, random.within(longest.min(5), longest) as i16, 0];
        let item = if row_flow { [primary, secondary] } else { [secondary, primary] };
        items.extend(item.concat());
    }
    let (wide, none) = ([0, explicit, 0], [0; 3]);
    let counts = if row_flow { [wide, none] } else { [none, wide] };
    Request { flow, counts, items, lengths: [0; 3] }
}

/// Lends lists from far too short over just short and just long enough to plenty.
fn lend(random: &mut Random, request: &mut Request) {
    let walk = plain::walk(request.flow, request.counts[0], request.counts[1], &request.items);
    let (rows, columns) = walk.need();
    let mut places = |need: usize| {
        let need = need.min(plain::LONGEST_LIST / 4);
        match random.below(20) {
            0 => random.below(need as u64 + 1) as usize,
            1 => need.saturating_sub(1),
            2..=9 => need,
            _ => (need + random.below(20) as usize).min(plain::LONGEST_LIST / 4),
        }
    };
    let (rows, columns) = (places(rows), places(columns));
    let answers = request.items.len() / 6 * 5 + random.pick(&[0, 0, 1, 5, 7]);
    request.lengths = [answers, 4 * rows, 4 * columns];
}

/// Breaks one rule of a request, sometimes a second one, so that the order of refusals shows.
pub fn spoil(random: &mut Random, request: &mut Request) {
    for _ in 0..random.within(1, 2) {
        match random.below(6) {
            0 => request.flow = random.pick(&[4, 5, 128, 255]),
            1 if random.one_in(50) => request.items = [1, 1, 0, 1, 1, 0].repeat(2001),
            1 => request.items.extend(vec![1; random.within(1, 5) as usize]),
            2 => {
                let axis = random.below(2) as usize;
                request.counts[axis] = random.pick(&[
                    [10001, 0, 0],
                    [0, 10001, 0],
                    [0, 0, 10001],
                    [0, 5000, 5001],
                    [1, 65535, 1],
                    [65535; 3],
                ]);
            }
            3 => request.lengths[0] = request.lengths[0].saturating_sub(random.within(1, 9) as usize),
            4 => {
                let list = random.within(1, 2) as usize;
                let long = random.one_in(100);
                request.lengths[list] =
                    if long { plain::LONGEST_LIST + 4 } else { request.lengths[list] + random.within(1, 3) as usize };
            }
            _ if request.items.is_empty() => (),
            _ => {
                let at = random.below(request.items.len() as u64) as usize;
                let values = [-32768, -20001, -20000, -1, 0, 1, 2, 10000, 10001, 20000, 20001, 32767];
                request.items[at] = random.pick(&values);
            }
        }
    }
}

/// Each with its share of 10000 requests.
const SHAPES: [(u64, Shape); 7] = [
    (7000, Shape { items: (0, 8), lines: (-3, 6), longest: 3, edge: 0, counts: 3, large: 0 }),
    (1800, Shape { items: (4, 14), lines: (-2, 4), longest: 2, edge: 0, counts: 2, large: 0 }),
    (900, Shape { items: (1, 30), lines: (-12, 15), longest: 7, edge: 0, counts: 8, large: 0 }),
    (100, Shape { items: (1, 6), lines: (-2, 3), longest: 3, edge: 30, counts: 3, large: 0 }),
    (80, Shape { items: (1, 8), lines: (9994, 10004), longest: 4, edge: 3, counts: 2, large: 30 }),
    (80, Shape { items: (1, 8), lines: (-10005, -9996), longest: 4, edge: 3, counts: 2, large: 20 }),
    (39, Shape { items: (1, 6), lines: (-3, 3), longest: 4, edge: 40, counts: 3, large: 30 }),
];

/// One good request of each shape.
pub fn of_each_shape(random: &mut Random) -> Vec<Request> {
    SHAPES.iter().map(|(_, shape)| good(random, shape)).collect()
}

/// A good request of any shape, each as likely as the others.
pub fn of_any_shape(random: &mut Random) -> Request {
    let at = random.below(SHAPES.len() as u64) as usize;
    good(random, &SHAPES[at].1)
}

/// The least number of items in a request that has very many.
const MANY: usize = 1000;

/// A good request: each shape has its share, and what is left has very many items.
pub fn by_share(random: &mut Random) -> Request {
    let mut left = random.below(10000);
    for (share, shape) in &SHAPES {
        if left < *share {
            return good(random, shape);
        }
        left -= share;
    }
    let longest = random.within(1, 12);
    let count = random.pick(&[MANY as i32, 1999, 2000, 2000]);
    many(random, count, longest)
}

/// Lent its lists, and now and then spoiled.
pub fn request(random: &mut Random) -> Request {
    let mut request = by_share(random);
    lend(random, &mut request);
    if request.items.len() < 6 * MANY && random.one_in(12) {
        spoil(random, &mut request);
    }
    request
}
