//! Each call with numbers that would show a wrong order or width of its arguments.
use hoarbale::*;

fn record(track: i16, start: i16, end: i16, state: i16) -> Record {
    Record { track, start, end, state }
}

fn counts(negative: u16, explicit: u16, positive: u16) -> TrackCounts {
    TrackCounts { negative, explicit, positive }
}

#[test]
fn lines() {
    assert_eq!(origin_zero_line(-3, 7), Ok(5));
    assert_eq!(origin_zero_line(-32768, 10000), Ok(-10000));
    assert_eq!(origin_zero_line(1, 10001), Err(Refusal { number: 11, index: 0 }));
    assert_eq!(css_line(5, 7), Ok(6));
    assert_eq!(css_line(-10000, 0), Ok(-10001));
    assert_eq!(css_line(-10001, 0), Err(Refusal { number: 11, index: 0 }));
}

#[test]
fn index() {
    assert_eq!(track_index(counts(2, 3, 5), -2), Ok(Some(0)));
    assert_eq!(track_index(counts(2, 3, 5), 8), Ok(Some(20)));
    assert_eq!(track_index(counts(2, 3, 5), 9), Ok(None));
    assert_eq!(track_index(counts(2, 3, 5), -3), Ok(None));
    assert_eq!(track_index(counts(10001, 0, 0), 0), Err(Refusal { number: 3, index: 0 }));
    assert_eq!(track_index(counts(10000, 10000, 0), 10000), Ok(Some(40000)));
}

#[test]
fn painting() {
    let mut list = [Record::default(); 3];
    assert_eq!(paint(&mut list, -10000..-9998, 3..7, State::Auto), Ok(()));
    assert_eq!(list, [record(-10000, 3, 7, 2), record(-9999, 3, 7, 2), Record::default()]);
    let before = list;
    assert_eq!(paint(&mut list, 0..2, 0..1, State::Fixed), Err(Refusal { number: 7, index: 0 }));
    assert_eq!(paint(&mut list, 0..10001, 0..1, State::Fixed), Err(Refusal { number: 10, index: 0 }));
    assert_eq!(list, before);
    let mut damaged = [record(0, 1, 1, 1)];
    assert_eq!(paint(&mut damaged, 0..1, 0..1, State::Fixed), Err(Refusal { number: 9, index: 0 }));
}

#[test]
fn jumps() {
    let list = [record(2, 10, 13, 1), record(2, 20, 21, 2), record(5, 11, 17, 1)];
    assert_eq!(collision_jump(&list, 2..6, 12..14), Ok(Some(17)));
    assert_eq!(collision_jump(&list, 2..3, 12..21), Ok(Some(21)));
    assert_eq!(collision_jump(&list, 2..5, 13..20), Ok(None));
    assert_eq!(collision_jump(&list, 5..5, 0..1), Err(Refusal { number: 10, index: 0 }));
    assert_eq!(occupied_track_jump(&list, 0..5), Ok(Some(3)));
    assert_eq!(occupied_track_jump(&list, 3..5), Ok(None));
}

#[test]
fn parts() {
    let rows = [record(2, 10, 13, 1), record(2, 20, 21, 2), record(5, 11, 17, 1)];
    let columns = [record(2, 0, 1, 1), Record::default()];
    assert_eq!(records_of_track(&rows, &columns, Axis::Rows, 2), &rows[..2]);
    assert_eq!(records_of_track(&rows, &columns, Axis::Rows, 5), &rows[2..]);
    assert_eq!(records_of_track(&rows, &columns, Axis::Columns, 2), &columns[..1]);
    assert_eq!(records_of_track(&rows, &columns, Axis::Columns, 5), &[]);
}

const ITEMS: [Item; 2] = [
    Item::new(Placement::Lines(-2, 3), Placement::Lines(7, 8)),
    Item::new(Placement::Span(1), Placement::Lines(9999, 10003)),
];

fn request(items: &[Item]) -> Request<'_> {
    Request { flow: Flow::Row, columns: counts(0, 2, 0), rows: counts(1, 1, 1), items }
}

#[test]
fn placing() {
    let mut tiles = [Tile::default(); 3];
    let (mut rows, mut columns) = ([Record::default(); 2], [Record::default(); 8]);
    let grown = place(&request(&ITEMS), &mut tiles, &mut rows, &mut columns).unwrap();
    assert_eq!((tiles[0].columns(), tiles[0].rows(), tiles[0].mark().bits()), (-2..3, 7..8, 2));
    assert_eq!((tiles[1].columns(), tiles[1].rows(), tiles[1].mark().bits()), (-2..-1, 9999..10000, 1));
    assert_eq!(tiles[2], Tile::default());
    assert_eq!(grown, Counts { columns: counts(2, 2, 1), rows: counts(1, 1, 9999) });
    assert_eq!(rows, [record(7, -2, 3, 1), record(9999, -2, -1, 2)]);
    assert_eq!(
        records_of_track(&rows, &columns, Axis::Columns, -2),
        &[record(-2, 7, 8, 1), record(-2, 9999, 10000, 2)]
    );
}

#[test]
fn refused() {
    let mut tiles = [Tile::default(); 2];
    let (mut rows, mut columns) = ([record(1, 1, 2, 1)], [record(3, 3, 4, 2)]);
    let bad = [ITEMS[0], Item::new(Placement::Lines(3, 3), Placement::Span(1))];
    assert_eq!(place(&request(&bad), &mut tiles, &mut rows, &mut columns), Err(Refusal { number: 6, index: 1 }));
    assert_eq!(place(&request(&ITEMS), &mut tiles[..1], &mut rows, &mut columns), Err(Refusal { number: 4, index: 0 }));
    assert_eq!((rows, columns), ([record(1, 1, 2, 1)], [record(3, 3, 4, 2)]));
    assert_eq!(place(&request(&ITEMS), &mut tiles, &mut rows, &mut columns), Err(Refusal { number: 8, index: 0 }));
    assert_eq!((rows, columns), ([Record::default()], [Record::default()]));
    let many = [ITEMS[0]; 2001];
    assert_eq!(place(&request(&many), &mut [], &mut [], &mut []), Err(Refusal { number: 2, index: 0 }));
}

#[cfg(feature = "alloc")]
#[test]
fn overwide() {
    let items = [Item::new(Placement::Span(3), Placement::Span(1))];
    let narrow = Request { flow: Flow::Row, columns: counts(0, 2, 0), rows: counts(0, 0, 0), items: &items };
    let layout = place_with_records(&narrow, 4).unwrap();
    let mark = layout.tiles[0].mark();
    assert!(mark.overwide() && !mark.pressed() && !mark.both_fixed());
    assert_eq!(layout.tiles[0].columns(), 0..3);
    let refusal: &dyn core::error::Error = &place_with_records(&narrow, 0).unwrap_err();
    assert_eq!(refusal.to_string(), "refusal 7: the row list, or the only list lent, has no room at item 0");
}
