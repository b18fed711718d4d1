//! The smallest boards that show where the original parts from CSS Grid Layout, section 8.5.
//!
//! A short reading of that section has a switch for each parting. Over every tiny request the reading with all switches
//! thrown gives what the original gives, so there is no further parting; and for each switch the smallest request is
//! searched on which it alone makes the difference.
use std::process::ExitCode;

type Span = (i32, i32);

/// The original's way in place of the section's, one for each parting.
#[derive(Clone, Copy, Default)]
struct Ways {
    no_step_3: bool,
    below_0: bool,
    start_tracks: bool,
    cursor_end: bool,
    untested: bool,
}

#[derive(Clone, Copy, PartialEq)]
enum Side {
    Fixed(Span),
    Spanned(i32),
}

struct Tile {
    index: usize,
    /// Along the primary and along the secondary axis.
    spans: [Span; 2],
    step: u8,
}

struct Grid {
    tiles: Vec<Tile>,
    /// The implicit grid by axis, primary first.
    ends: [Span; 2],
}

fn meet(one: Span, other: Span) -> bool {
    one.0 < other.1 && other.0 < one.1
}

fn widened(grid: Span, span: Span) -> Span {
    (grid.0.min(span.0), grid.1.max(span.1))
}

/// Both sides limit an area that leaves the grid of at most 10000 tracks each way.
fn limited(span: Span) -> Span {
    let start = span.0.clamp(-10000, 9999);
    (start, span.1.clamp(start + 1, 10000))
}

impl Grid {
    fn free(&self, spans: [Span; 2]) -> bool {
        !self.tiles.iter().any(|tile| meet(tile.spans[0], spans[0]) && meet(tile.spans[1], spans[1]))
    }

    fn lay(&mut self, index: usize, spans: [Span; 2], step: u8) {
        let spans = spans.map(limited);
        self.ends = [widened(self.ends[0], spans[0]), widened(self.ends[1], spans[1])];
        self.tiles.push(Tile { index, spans, step });
    }
}

/// Section 8.5 for sides by axis, primary first, and the explicit counts.
fn placed(ways: Ways, dense: bool, explicit: [i32; 2], items: &[[Side; 2]]) -> Vec<[Span; 2]> {
    let mut grid = Grid { tiles: Vec::new(), ends: explicit.map(|count| (0, count)) };

    // Step 1: whatever is not auto-positioned.
    for (index, item) in items.iter().enumerate() {
        if let [Side::Fixed(along), Side::Fixed(across)] = *item {
            grid.lay(index, [along, across], 1);
        }
    }

    // Step 2: items locked to a row, each at the smallest positive line, sparse ones past this step's items in the row.
    for (index, item) in items.iter().enumerate() {
        let [Side::Spanned(length), Side::Fixed(across)] = *item else { continue };
        let first = if ways.below_0 { grid.ends[0].0 } else { 0 };
        let in_row = |tile: &&Tile| {
            let same = if ways.start_tracks { tile.spans[1].0 == across.0 } else { meet(tile.spans[1], across) };
            tile.step == 2 && same
        };
        let past = grid.tiles.iter().filter(in_row).map(|tile| tile.spans[0].1).max();
        let from = if dense { first } else { past.unwrap_or(first) };
        let line = (from..).find(|&line| grid.free([(line, line + length), across])).expect("there is no end");
        grid.lay(index, [(line, line + length), across], 2);
    }

    // Step 3: the columns that the rest of the items need.
    if !ways.no_step_3 {
        for item in items {
            if let Side::Fixed(along) = item[0] {
                grid.ends[0] = widened(grid.ends[0], limited(along));
            }
        }
        for item in items {
            if let Side::Spanned(length) = item[0] {
                grid.ends[0].1 = grid.ends[0].1.max(grid.ends[0].0 + length);
            }
        }
    }

    // Step 4: the rest.
    let begun = (grid.ends[0].0, grid.ends[1].0);
    let mut cursor = begun;
    for (index, item) in items.iter().enumerate() {
        let Side::Spanned(height) = item[1] else { continue };
        if dense {
            cursor = begun;
        }
        let (along, line) = match item[0] {
            Side::Fixed(along) => {
                let from = if !dense && along.0 < cursor.0 { cursor.1 + 1 } else { cursor.1 };
                let line = (from..).find(|&line| grid.free([along, (line, line + height)])).expect("there is no end");
                (along, line)
            }
            Side::Spanned(length) => {
                let (start, end) = grid.ends[0];
                // Only without step 3 a span may be wider than the grid.
                let wide = start + length > end;
                let end = end.max(start + length);
                let (mut from, mut line) = cursor;
                let found = loop {
                    let good = |&line_along: &i32| {
                        let spans = [(line_along, line_along + length), (line, line + height)];
                        (wide && ways.untested) || grid.free(spans)
                    };
                    match (from..=end - length).find(good) {
                        Some(found) => break found,
                        None => (from, line) = (start, line + 1),
                    }
                };
                ((found, found + length), line)
            }
        };
        grid.lay(index, [along, (line, line + height)], 4);
        cursor = if ways.cursor_end { (along.1, line) } else { (along.0, line) };
    }

    let mut all = vec![[(0, 0); 2]; items.len()];
    for tile in &grid.tiles {
        all[tile.index] = tile.spans;
    }
    all
}

#[derive(Clone)]
struct Request {
    flow: u8,
    explicit: [u16; 2],
    /// Columns first.
    items: Vec<[Side; 2]>,
}

type Lines = Vec<[i16; 4]>;

fn numbers(side: Side) -> [i16; 3] {
    match side {
        Side::Fixed((a, b)) => [0, a as i16, b as i16],
        Side::Spanned(length) => [1, length as i16, 0],
    }
}

impl Request {
    fn numbers(&self) -> Vec<[i16; 6]> {
        let six = |item: &[Side; 2]| item.map(numbers).concat().try_into().expect("six numbers");
        self.items.iter().map(six).collect()
    }

    fn counts(&self) -> [[u16; 3]; 2] {
        self.explicit.map(|count| [0, count, 0])
    }

    fn by_css(&self, ways: Ways) -> Lines {
        let rows_first = self.flow % 2 == 1;
        let turned = |pair: [Span; 2]| if rows_first { [pair[1], pair[0]] } else { pair };
        let items: Vec<[Side; 2]> =
            self.items.iter().map(|item| if rows_first { [item[1], item[0]] } else { *item }).collect();
        let explicit = self.explicit.map(|count| count as i32);
        let explicit = if rows_first { [explicit[1], explicit[0]] } else { explicit };
        let lines = |spans: [Span; 2]| {
            let [columns, rows] = turned(spans);
            [columns.0, columns.1, rows.0, rows.1].map(|line| line as i16)
        };
        placed(ways, self.flow >= 2, explicit, &items).into_iter().map(lines).collect()
    }

    fn by_original(&self) -> Lines {
        let [columns, rows] = self.counts();
        original::place(self.flow, columns, rows, &self.numbers()).lines
    }

    #[cfg(feature = "placement")]
    fn by_ours(&self) -> Lines {
        let [columns, rows] = self.counts();
        let items = self.numbers().concat();
        let mut answers = vec![0; 5 * self.items.len()];
        let (mut row_list, mut column_list) = (vec![0; 256], vec![0; 256]);
        ours::place(self.flow, columns, rows, &items, &mut answers, &mut row_list, &mut column_list)
            .expect("a request that fits");
        answers.chunks(5).map(|answer| [answer[0], answer[1], answer[2], answer[3]]).collect()
    }

    /// Fewer items first, then smaller numbers, then fewer negative ones, then the earlier flow.
    fn size(&self) -> (usize, i32, usize, u8) {
        let side = |side: &Side| match side {
            Side::Fixed((a, b)) => a.abs() + b.abs(),
            Side::Spanned(length) => *length,
        };
        let items: i32 = self.items.iter().flatten().map(side).sum();
        let counts: u16 = self.explicit.iter().sum();
        let negative = self.items.iter().flatten().filter(|side| matches!(side, Side::Fixed((a, _)) if *a < 0)).count();
        (self.items.len(), items + counts as i32, negative, self.flow)
    }

    fn said(&self) -> String {
        let side = |name: &str, side: Side| match side {
            Side::Fixed((a, b)) => format!("{name} {a}..{b}"),
            Side::Spanned(length) => format!("{name} span {length}"),
        };
        let item = |item: &[Side; 2]| format!("({}, {})", side("columns", item[0]), side("rows", item[1]));
        let items: Vec<String> = self.items.iter().map(item).collect();
        let [columns, rows] = self.explicit;
        format!("columns 0/{columns}/0, rows 0/{rows}/0, flow {}: {}", self.flow, items.join(", "))
    }
}

fn areas(lines: &Lines) -> String {
    let area = |lines: &[i16; 4]| format!("({}..{}, {}..{})", lines[0], lines[1], lines[2], lines[3]);
    lines.iter().map(area).collect::<Vec<_>>().join(" ")
}

struct Parting {
    name: &'static str,
    /// With these ways the reading must give the section's answer still, and with those the original's.
    before: Ways,
    after: Ways,
    least: Option<Request>,
}

fn partings() -> [Parting; 5] {
    let css = Ways::default();
    let no_step_3 = Ways { no_step_3: true, ..css };
    let of = |name, before, after| Parting { name, before, after, least: None };
    [
        of("no step 3", css, no_step_3),
        of("step 2 may start below line 0", css, Ways { below_0: true, ..css }),
        of("step 2's cursor looks at start tracks only", css, Ways { start_tracks: true, ..css }),
        of("the sparse cursor keeps the primary end", css, Ways { cursor_end: true, ..css }),
        // With step 3 no span is overwide, so this one shows only where that one does.
        of("an overwide span is laid down untested", no_step_3, Ways { untested: true, ..no_step_3 }),
    ]
}

const ALL: Ways = Ways { no_step_3: true, below_0: true, start_tracks: true, cursor_end: true, untested: true };

/// Every request of `count` items whose sides are among the given ones.
fn every(count: usize, columns: &[Side], rows: &[Side], explicit: &[[u16; 2]], judge: &mut dyn FnMut(Request)) {
    let kinds: Vec<[Side; 2]> = columns.iter().flat_map(|&side| rows.iter().map(move |&row| [side, row])).collect();
    for number in 0..kinds.len().pow(count as u32) {
        let digit = |at: usize| kinds[number / kinds.len().pow(at as u32) % kinds.len()];
        let items: Vec<[Side; 2]> = (0..count).rev().map(digit).collect();
        for &explicit in explicit {
            for flow in 0..4 {
                judge(Request { flow, explicit, items: items.clone() });
            }
        }
    }
}

fn main() -> ExitCode {
    let mut partings = partings();
    let (mut tried, mut wrong) = (0u64, 0u64);
    let mut judge = |request: Request| {
        tried += 1;
        let original = request.by_original();
        if request.by_css(ALL) != original {
            wrong += 1;
            println!("NOT AMONG THE PARTINGS: {}", request.said());
        }
        let css = request.by_css(Ways::default());
        if css == original {
            return;
        }
        for parting in &mut partings {
            let smaller = parting.least.as_ref().is_none_or(|least| request.size() < least.size());
            if smaller && request.by_css(parting.before) == css && request.by_css(parting.after) == original {
                parting.least = Some(request.clone());
            }
        }
    };

    let spans = |most: i32| (1..=most).map(Side::Spanned);
    let lines = |spans: &[Span]| spans.iter().map(|&span| Side::Fixed(span)).collect::<Vec<_>>();
    let near: Vec<Side> = lines(&[(0, 1), (0, 2), (1, 2), (-1, 0), (-1, 1)]).into_iter().chain(spans(2)).collect();
    let counts: Vec<[u16; 2]> = (0..3).flat_map(|columns| (0..2).map(move |rows| [columns, rows])).collect();
    for count in 0..=3 {
        every(count, &near, &near, &counts, &mut judge);
    }
    // At the last lines of the limited grid.
    let far: Vec<Side> = lines(&[(9999, 10000), (9999, 10001), (10000, 10001), (10000, 10002), (10001, 10002)]);
    let far: Vec<Side> = far.into_iter().chain(spans(1)).collect();
    let one: Vec<Side> = lines(&[(0, 1)]).into_iter().chain(spans(1)).collect();
    for count in 1..=2 {
        every(count, &far, &one, &[[0, 0], [1, 1]], &mut judge);
        every(count, &one, &far, &[[0, 0], [1, 1]], &mut judge);
    }

    println!("{tried} tiny requests; {wrong} of them part from CSS otherwise than by the five below");
    for (at, parting) in partings.iter().enumerate() {
        println!("\n{}. {}", at + 1, parting.name);
        let Some(least) = &parting.least else {
            println!("   NO BOARD SHOWS IT");
            wrong += 1;
            continue;
        };
        let original = least.by_original();
        println!("   {}", least.said());
        println!("   CSS      {}", areas(&least.by_css(Ways::default())));
        println!("   original {}", areas(&original));
        #[cfg(feature = "placement")]
        {
            println!("   ours     {}", areas(&least.by_ours()));
            wrong += (least.by_ours() != original) as u64;
        }
    }
    if wrong == 0 {
        ExitCode::SUCCESS
    } else {
        ExitCode::FAILURE
    }
}
