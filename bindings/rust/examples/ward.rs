//! Lays out a ward's board with a fall alarm beside a full rail, and prints each tile with its mark.
use hoarbale::{place_with_records, Flow, Item, Mark, Placement, Refusal, Request, TrackCounts};
use Placement::{Lines, Span};

fn told(mark: Mark) -> &'static str {
    match (mark.pressed(), mark.overwide(), mark.both_fixed()) {
        (true, _, true) => "pressed onto the grid, where it was fixed",
        (true, _, false) => "PRESSED: it may lie on another tile",
        (_, true, _) => "OVERWIDE: laid untested",
        (_, _, true) => "fixed",
        _ => "free",
    }
}

fn main() -> Result<(), Refusal> {
    let board = [
        ("rail", Item::new(Lines(11, 12), Lines(0, 10000))),
        ("header", Item::new(Lines(0, 11), Lines(0, 1))),
        ("bed 1", Item::new(Span(3), Span(2))),
        ("bed 2", Item::new(Span(3), Span(2))),
        ("log", Item::new(Span(4), Span(3))),
        ("badge", Item::new(Span(1), Span(1))),
        ("fall alarm", Item::new(Lines(11, 12), Span(1))),
    ];
    let items = board.map(|(_, item)| item);
    let columns = TrackCounts { negative: 0, explicit: 12, positive: 0 };
    let rows = TrackCounts { negative: 0, explicit: 6, positive: 0 };
    let layout = place_with_records(&Request { flow: Flow::Row, columns, rows, items: &items }, 16384)?;
    for ((name, _), tile) in board.iter().zip(&layout.tiles) {
        println!("{name:<12} columns {:?}, rows {:?}: {}", tile.columns(), tile.rows(), told(tile.mark()));
    }
    Ok(())
}
