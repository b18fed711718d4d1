//! The list rules and the list calls.
use crate::cells::Cells;
use crate::{HIGHEST, LONGEST_LIST, LOWEST};

type Span = (i16, i16);

pub fn length_good(list: &[i16]) -> bool {
    list.len() % 4 == 0 && list.len() <= LONGEST_LIST
}

/// Whether a list of a good length keeps the list rules.
pub fn rules_kept(list: &[i16]) -> bool {
    let places: Vec<&[i16]> = list.chunks(4).collect();
    let used = places.iter().take_while(|place| place.iter().any(|&number| number != 0)).count();
    if places[used..].iter().any(|place| place.iter().any(|&number| number != 0)) {
        return false;
    }
    let record_good = |record: &&[i16]| {
        let inside = |line: i16| (LOWEST..=HIGHEST).contains(&(line as i32));
        (-10000..=9999).contains(&record[0])
            && inside(record[1])
            && inside(record[2])
            && record[1] < record[2]
            && (record[3] == 1 || record[3] == 2)
    };
    let neighbours_good = |pair: &[&[i16]]| {
        let (before, after) = (pair[0], pair[1]);
        before[0] < after[0]
            || before[0] == after[0] && (before[2] < after[1] || before[2] == after[1] && before[3] != after[3])
    };
    places[..used].iter().all(record_good) && places[..used].windows(2).all(neighbours_good)
}

fn records(list: &[i16]) -> impl Iterator<Item = &[i16]> {
    list.chunks(4).filter(|record| record[3] != 0)
}

/// The state of the cell of `track` that begins at `line`.
pub fn state_at(list: &[i16], track: i16, line: i16) -> u8 {
    let covers = |record: &&[i16]| record[0] == track && record[1] <= line && line < record[2];
    records(list).find(covers).map_or(0, |record| record[3] as u8)
}

/// The cells of a list that keeps the rules, with the lines of an area among the chosen ones.
fn cells(list: &[i16], area_tracks: Span, area_lines: Span) -> Cells {
    let mut tracks = vec![area_tracks.0 as i32, area_tracks.1 as i32];
    let mut lines = vec![area_lines.0 as i32, area_lines.1 as i32];
    for record in records(list) {
        tracks.extend([record[0] as i32, record[0] as i32 + 1]);
        lines.extend([record[1] as i32, record[2] as i32]);
    }
    let mut cells = Cells::new(tracks, lines);
    for record in records(list) {
        let track = record[0] as i32;
        cells.paint((track, track + 1), (record[1] as i32, record[2] as i32), record[3] as u8);
    }
    cells
}

fn wide(span: Span) -> (i32, i32) {
    (span.0 as i32, span.1 as i32)
}

/// Writes records and zeroes the places after them.
pub fn write(list: &mut [i16], records: &[[i16; 4]]) {
    list.fill(0);
    for (place, record) in list.chunks_mut(4).zip(records) {
        place.copy_from_slice(record);
    }
}

/// 0 where painted, else the number of the refusal.
pub fn paint(list: &mut [i16], tracks: Span, lines: Span, state: i16) -> u8 {
    if !length_good(list) {
        return 5;
    }
    if !rules_kept(list) {
        return 9;
    }
    let inside = |line: i16| (LOWEST..=HIGHEST).contains(&(line as i32));
    let area_good = [tracks, lines].iter().all(|&(start, end)| start < end && inside(start) && inside(end));
    if !area_good || !(state == 1 || state == 2) {
        return 10;
    }
    let mut cells = cells(list, tracks, lines);
    cells.paint(wide(tracks), wide(lines), state as u8);
    if cells.count() > list.len() / 4 {
        return 7;
    }
    write(list, &cells.records());
    0
}

fn readable(list: &[i16]) -> Result<(), u8> {
    if !length_good(list) {
        return Err(5);
    }
    if !rules_kept(list) {
        return Err(9);
    }
    Ok(())
}

pub fn collision_jump(list: &[i16], tracks: Span, lines: Span) -> Result<Option<i16>, u8> {
    readable(list)?;
    if tracks.0 >= tracks.1 || lines.0 >= lines.1 {
        return Err(10);
    }
    Ok(cells(list, tracks, lines).collision_jump(wide(tracks), wide(lines)).map(|line| line as i16))
}

pub fn occupied_track_jump(list: &[i16], tracks: Span) -> Result<Option<i16>, u8> {
    readable(list)?;
    if tracks.0 >= tracks.1 {
        return Err(10);
    }
    Ok(cells(list, tracks, (0, 1)).occupied_track_jump(wide(tracks)).map(|line| line as i16))
}

/// Where the part begins and how many numbers it has; (0, 0) where it is empty.
pub fn records_of_track(rows: &[i16], columns: &[i16], axis: u8, track: i16) -> (usize, usize) {
    let list = match axis {
        0 => columns,
        1 => rows,
        _ => return (0, 0),
    };
    if readable(list).is_err() {
        return (0, 0);
    }
    let of_track = |place: &[i16]| place[3] != 0 && place[0] == track;
    let count = list.chunks(4).filter(|place| of_track(place)).count();
    match list.chunks(4).position(of_track) {
        Some(first) => (4 * first, 4 * count),
        None => (0, 0),
    }
}
