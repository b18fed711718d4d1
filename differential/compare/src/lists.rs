//! Series of calls on one list, beside the original's matrix and the plain reading.
use crate::random::Random;
use crate::sides::Ours;
use crate::tally::{caught, shrink, Tally};
use original::{Axis, Matrix};

type Span = (i16, i16);

/// A call is a kind and its numbers, all alike, so that one loop makes every kind smaller.
#[derive(Clone, Debug, PartialEq)]
enum Kind {
    /// Tracks, lines, state.
    Paint,
    /// Tracks, lines.
    Jump,
    /// Tracks.
    TrackJump,
    /// Axis, track. The list is lent as the named one, the other holds numbers that break the rules.
    Records,
    /// Tracks, lines, place, number: every call on a copy with that number in that place.
    Damage,
    /// Tracks, lines, numbers left: every call on a copy cut or lengthened to that many numbers.
    Length,
}

#[derive(Clone)]
struct Call {
    kind: Kind,
    n: [i16; 6],
}

#[derive(Clone)]
struct Series {
    /// Whether the list's tracks are the rows.
    rows: bool,
    places: usize,
    counts: [[u16; 3]; 2],
    calls: Vec<Call>,
}

impl std::fmt::Display for Series {
    fn fmt(&self, out: &mut std::fmt::Formatter<'_>) -> std::fmt::Result {
        let axis = if self.rows { "row" } else { "column" };
        write!(out, "{axis} list of {} places, counts {:?}:", self.places, self.counts)?;
        self.calls.iter().try_for_each(|call| write!(out, " {:?}{:?}", call.kind, call.n))
    }
}

/// The numbers that the paints gave (0: painted), or what differs.
fn judge(series: &Series, ours: Ours) -> Result<Vec<u8>, String> {
    let mut given = Vec::new();
    let mut list = vec![0; 4 * series.places];
    let mut matrix = Matrix::new(series.counts[0], series.counts[1]);
    for call in &series.calls {
        let [a, b, c, d, e, f] = call.n;
        match call.kind {
            Kind::Paint => {
                given.push(paint(&mut list, (a, b), (c, d), e, ours)?);
                if given.last() == Some(&0) {
                    let axis = if series.rows { Axis::Horizontal } else { Axis::Vertical };
                    caught("original", || matrix.mark_area_as(axis, (c, d), (a, b), e as u8))?;
                    corners(series.rows, &list, &matrix, (a, b), (c, d), ours)?;
                    states(series.rows, &list, &matrix)?;
                }
            }
            Kind::Jump => jump(series.rows, &list, &matrix, (a, b), (c, d), ours)?,
            Kind::TrackJump => track_jump(series.rows, &list, &matrix, (a, b), ours)?,
            Kind::Records => records(&list, a, b, ours)?,
            Kind::Damage => {
                let mut damaged = list.clone();
                // Counted round the used places and one more, where a changed number matters.
                let used = list.chunks(4).filter(|record| record[3] != 0).count();
                if let Some(number) = damaged.get_mut(e as usize % (4 * used + 4)) {
                    *number = f;
                }
                given.push(every_call(&damaged, (a, b), (c, d), ours)?);
            }
            Kind::Length => {
                // A negative number stands for the shortest length that is too long.
                let length = if e < 0 { plain::LONGEST_LIST + 4 } else { e as usize };
                let mut other = list.clone();
                other.resize(length, 0);
                given.push(every_call(&other, (a, b), (c, d), ours)?);
            }
        }
    }
    Ok(given)
}

fn same<T: PartialEq + std::fmt::Debug>(call: &str, plain: T, side: &str, other: Option<T>) -> Result<(), String> {
    match other {
        Some(other) if other != plain => Err(format!("{call}: plain {plain:?}, {side} {other:?}")),
        _ => Ok(()),
    }
}

fn paint(list: &mut [i16], tracks: Span, lines: Span, state: i16, ours: Ours) -> Result<u8, String> {
    let mut our_list = list.to_vec();
    let number = plain::paint(list, tracks, lines, state);
    let our_number = caught("ours", || ours.paint(&mut our_list, tracks, lines, state))?;
    same("paint", number, "ours", our_number)?;
    if our_number.is_some() && our_list != list {
        return Err(format!("list after paint: plain {list:?}, ours {our_list:?}"));
    }
    Ok(number)
}

/// The original adds the negative count to a track line in 16 bits; lines that a placement never has may not fit.
fn original_fits(span: Span) -> bool {
    span.0 < span.1 && span.0 >= -22000 && span.1 <= 22000
}

fn jump(rows: bool, list: &[i16], matrix: &Matrix, tracks: Span, lines: Span, ours: Ours) -> Result<(), String> {
    let plain = plain::collision_jump(list, tracks, lines);
    same("collision jump", plain, "ours", caught("ours", || ours.collision_jump(list, tracks, lines))?)?;
    if !original_fits(tracks) || lines.0 >= lines.1 {
        return Ok(());
    }
    let axis = if rows { Axis::Horizontal } else { Axis::Vertical };
    let original = caught("original", || matrix.line_area_collision_jump(axis, lines, tracks))?;
    same("collision jump", plain, "original", Some(Ok(original)))
}

fn track_jump(rows: bool, list: &[i16], matrix: &Matrix, tracks: Span, ours: Ours) -> Result<(), String> {
    let plain = plain::occupied_track_jump(list, tracks);
    same("occupied-track jump", plain, "ours", caught("ours", || ours.occupied_track_jump(list, tracks))?)?;
    if !original_fits(tracks) {
        return Ok(());
    }
    let axis = if rows { Axis::Vertical } else { Axis::Horizontal };
    let original = caught("original", || matrix.occupied_track_jump(axis, tracks))?;
    same("occupied-track jump", plain, "original", Some(Ok(original)))
}

fn records(list: &[i16], axis: i16, track: i16, ours: Ours) -> Result<(), String> {
    let broken = [7, 7, 7];
    let (rows, columns): (&[i16], &[i16]) = if axis == 1 { (list, &broken) } else { (&broken, list) };
    let plain = plain::records_of_track(rows, columns, axis as u8, track);
    same(
        "records of a track",
        plain,
        "ours",
        caught("ours", || ours.records_of_track(rows, columns, axis as u8, track))?,
    )
}

/// The end of the run that each cell in and beside an area's corners is in, which the original shows on any board.
fn corners(rows: bool, list: &[i16], matrix: &Matrix, tracks: Span, lines: Span, ours: Ours) -> Result<(), String> {
    for track in [tracks.0 - 1, tracks.0, tracks.1 - 1, tracks.1] {
        for line in [lines.0 - 1, lines.0, lines.1 - 1, lines.1] {
            jump(rows, list, matrix, (track, track + 1), (line, line + 1), ours)?;
        }
    }
    Ok(())
}

/// Every cell, where the original shows its state.
pub fn states(rows: bool, list: &[i16], matrix: &Matrix) -> Result<(), String> {
    let first = |axis: Axis| -(matrix.counts(axis)[0] as i16);
    for (row, cells) in (first(Axis::Vertical)..).zip(matrix.states().unwrap_or_default()) {
        for (column, state) in (first(Axis::Horizontal)..).zip(cells) {
            let (track, line) = if rows { (row, column) } else { (column, row) };
            let plain = plain::state_at(list, track, line);
            if plain != state {
                return Err(format!("state at row {row}, column {column}: plain {plain}, original {state}"));
            }
        }
    }
    Ok(())
}

fn every_call(list: &[i16], tracks: Span, lines: Span, ours: Ours) -> Result<u8, String> {
    let plain = plain::collision_jump(list, tracks, lines);
    same("collision jump", plain, "ours", caught("ours", || ours.collision_jump(list, tracks, lines))?)?;
    let plain = plain::occupied_track_jump(list, tracks);
    same("occupied-track jump", plain, "ours", caught("ours", || ours.occupied_track_jump(list, tracks))?)?;
    records(list, 0, tracks.0, ours)?;
    records(list, 1, tracks.0, ours)?;
    paint(&mut list.to_vec(), tracks, lines, 2, ours)
}

/// Where a series' lines lie.
#[derive(Clone, Copy)]
enum Lie {
    Near(i32, i32),
    Edge,
}

fn line(random: &mut Random, lie: Lie) -> i16 {
    let line = match lie {
        Lie::Near(low, high) => random.within(low, high),
        Lie::Edge if random.one_in(4) => random.within(-3, 3),
        Lie::Edge if random.one_in(2) => random.within(-10000, -9996),
        Lie::Edge => random.within(9996, 10000),
    };
    line as i16
}

fn span(random: &mut Random, lie: Lie) -> Span {
    loop {
        let (one, other) = (line(random, lie), line(random, lie));
        // Areas over the whole limited grid are slow for every side, so most are near one edge.
        let far = (one as i32 - other as i32).abs() > 100;
        if one != other && (!far || random.one_in(60)) {
            return (one.min(other), one.max(other));
        }
    }
}

/// Now and then a span that no area may have, or that lies outside the limited grid.
fn any_span(random: &mut Random, lie: Lie) -> Span {
    let good = span(random, lie);
    match random.below(40) {
        0 => (good.1, good.0),
        1 => (good.0, good.0),
        2 => (random.pick(&[-32768, -20000, -10001]), good.1),
        3 => (good.0, random.pick(&[10001, 20000, 22000, 32767])),
        _ => good,
    }
}

fn call(random: &mut Random, tracks: Lie, lines: Lie, places: usize) -> Call {
    let (kind, e, f) = match random.below(100) {
        0..=54 => {
            let state = if random.one_in(50) { random.pick(&[-1, 0, 3, 257]) } else { random.within(1, 2) };
            (Kind::Paint, state, 0)
        }
        55..=74 => (Kind::Jump, 0, 0),
        75..=84 => (Kind::TrackJump, 0, 0),
        85..=89 => (Kind::Records, 0, 0),
        90..=97 => {
            let near = random.within(-2, 12);
            let number =
                random.pick(&[near, near, near, near, near, 1, 2, -10001, -10000, 9999, 10000, 10001, 32767, -32768]);
            (Kind::Damage, random.below(4 * places as u64 + 1) as i32, number)
        }
        _ if random.one_in(400) => (Kind::Length, -1, 0),
        _ => (Kind::Length, random.below(4 * places as u64 + 8) as i32, 0),
    };
    let (tracks, lines) = (any_span(random, tracks), any_span(random, lines));
    let mut n = [tracks.0, tracks.1, lines.0, lines.1, e as i16, f as i16];
    if kind == Kind::Records {
        n = [random.pick(&[0, 0, 0, 1, 1, 1, 2, 255]), tracks.0, 0, 0, 0, 0];
    }
    Call { kind, n }
}

fn series(random: &mut Random) -> Series {
    let (tracks, lines) = match random.below(100) {
        0..=59 => (Lie::Near(-2, 3), Lie::Near(-3, 6)),
        60..=79 => (Lie::Near(-5, 6), Lie::Near(-20, 25)),
        80..=87 => (Lie::Near(-1, 2), Lie::Edge),
        88..=95 => (Lie::Edge, Lie::Near(-2, 4)),
        _ => (Lie::Edge, Lie::Edge),
    };
    // From no place at all over lists that are full most of the time to lists with room for everything.
    let places = match random.below(10) {
        0..=5 => random.below(12) as usize,
        6..=8 => random.within(12, 60) as usize,
        _ if random.one_in(10) => 21000,
        _ => 200,
    };
    let count = |random: &mut Random| random.below(4) as u16;
    let counts = [0; 2].map(|_| [0; 3].map(|_| count(random)));
    let calls = (0..random.within(1, 24)).map(|_| call(random, tracks, lines, places)).collect();
    Series { rows: random.one_in(2), places, counts, calls }
}

/// A number nearer to 0, by each of some ways.
pub fn smaller(number: i16) -> impl Iterator<Item = i16> {
    [0, number / 2, number - number.signum()].into_iter().filter(move |&less| less != number)
}

/// The series that single changes make of one.
fn tries(series: &Series) -> Vec<Series> {
    let mut tries: Vec<Series> = Vec::new();
    for at in 0..series.calls.len() {
        let mut less = series.clone();
        less.calls.remove(at);
        tries.push(less);
    }
    for at in 0..series.calls.len() {
        for number in 0..6 {
            for value in smaller(series.calls[at].n[number]) {
                let mut less = series.clone();
                less.calls[at].n[number] = value;
                tries.push(less);
            }
        }
    }
    if series.places > 0 {
        tries.push(Series { places: series.places / 2, ..series.clone() });
        tries.push(Series { places: series.places - 1, ..series.clone() });
    }
    if series.counts != [[0; 3]; 2] {
        tries.push(Series { counts: [[0; 3]; 2], ..series.clone() });
    }
    tries
}

/// Compares at least `count` calls.
pub fn run(random: &mut Random, count: u64, ours: Ours) -> Tally {
    let mut tally = Tally::default();
    while tally.compared < count {
        let series = series(random);
        tally.compared += series.calls.len() as u64;
        match judge(&series, ours) {
            Ok(given) => given.iter().for_each(|&number| tally.given[number as usize] += 1),
            Err(_) => {
                let small =
                    if tally.shows() { shrink(series, tries, |less| judge(less, ours).is_err()) } else { series };
                tally.differs(|| format!("{}: {small}", judge(&small, ours).unwrap_err()));
            }
        }
    }
    tally
}
