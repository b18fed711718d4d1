//! The worked boards, by their numbers in the rules.
use plain::*;

type Counts = [u16; 3];

const ROOM: usize = 80_000;

struct Board {
    answers: Vec<[i16; 5]>,
    counts: [Counts; 2],
    row_list: Vec<i16>,
    column_list: Vec<i16>,
}

fn board_with(flow: u8, columns: Counts, rows: Counts, items: &[[i16; 6]], room: usize) -> Result<Board, (u8, u16)> {
    let mut answers = vec![0; 5 * items.len()];
    let (mut row_list, mut column_list) = (vec![9; room], vec![9; room]);
    let items = items.concat();
    let counts = place(flow, columns, rows, &items, &mut answers, &mut row_list, &mut column_list)?;
    let answers = answers.chunks(5).map(|answer| answer.try_into().unwrap()).collect();
    Ok(Board { answers, counts, row_list, column_list })
}

fn board(flow: u8, columns: Counts, rows: Counts, items: &[[i16; 6]]) -> Board {
    board_with(flow, columns, rows, items, ROOM).unwrap()
}

#[test]
fn board_1() {
    let board = board(0, [1, 2, 3], [0; 3], &[]);
    assert_eq!(board.counts, [[1, 2, 3], [0; 3]]);
    assert!(board.row_list.iter().chain(&board.column_list).all(|&number| number == 0));
}

#[test]
fn board_2() {
    let lines = |a: i16, b: i16| board(0, [0; 3], [0; 3], &[[0, a, b, 0, 0, 1]]).answers[0];
    assert_eq!(lines(-20000, -19999), [-10000, -9999, 0, 1, 3]);
    assert_eq!(lines(9999, 10001), [9999, 10000, 0, 1, 3]);
    assert_eq!(lines(-12000, 12000), [-10000, 10000, 0, 1, 3]);
}

#[test]
fn board_3() {
    let lines = [1, 4, -1, -5, 32767, 0].map(|line| origin_zero_line(line, 3));
    assert_eq!(lines, [Ok(0), Ok(3), Ok(3), Ok(-1), Ok(10000), Err(11)]);
}

#[test]
fn board_4() {
    let board = board(0, [0, 2, 0], [0, 2, 0], &[[1, 1, 0, 1, 1, 0]; 3]);
    assert_eq!(board.answers, [[0, 1, 0, 1, 0], [1, 2, 0, 1, 0], [0, 1, 1, 2, 0]]);
}

#[test]
fn board_5() {
    let items = [2, 2, 1].map(|span| [1, span, 0, 1, 1, 0]);
    assert_eq!(board(0, [0, 3, 0], [0, 1, 0], &items).answers[2], [2, 3, 1, 2, 0]);
    assert_eq!(board(2, [0, 3, 0], [0, 1, 0], &items).answers[2], [2, 3, 0, 1, 0]);
}

#[test]
fn board_6() {
    let items = [[0, 0, 1, 0, 0, 10000], [0, 0, 1, 1, 1, 0]];
    let placed = board_with(0, [0, 1, 0], [0; 3], &items, 4 * 10000).unwrap();
    assert_eq!(placed.answers[1], [0, 1, 9999, 10000, 1]);
    assert_eq!(placed.column_list[..12], [0, 0, 9999, 1, 0, 9999, 10000, 2, 0, 0, 0, 0]);
    assert_eq!(board_with(0, [0, 1, 0], [0; 3], &items, 4 * 9999).err(), Some((7, 0)));
}

#[test]
fn board_7() {
    let board = board(0, [0, 2, 0], [0, 1, 0], &[[0, 0, 1, 0, 0, 1], [1, 3, 0, 1, 1, 0]]);
    assert_eq!(board.answers[1], [0, 3, 0, 1, 4]);
    assert_eq!(board.row_list[..8], [0, 0, 3, 2, 0, 0, 0, 0]);
    assert_eq!(board.counts[0], [0, 2, 1]);
}

#[test]
fn board_8() {
    let items = [[0, 0, 1, 0, 0, 1], [1, 1, 0, 0, 0, 2], [1, 1, 0, 0, 1, 2], [1, 1, 0, 0, 0, 1]];
    let board = board(0, [0, 4, 0], [0, 2, 0], &items);
    assert_eq!(board.answers[1..].iter().map(|answer| answer[0]).collect::<Vec<_>>(), [1, 0, 2]);
}

#[test]
fn board_9() {
    let board = board(2, [0, 1, 0], [0; 3], &[[0, -2, -1, 1, 1, 0], [1, 1, 0, 1, 1, 0]]);
    assert_eq!(board.answers, [[-2, -1, 0, 1, 0], [0, 1, 0, 1, 0]]);
}

#[test]
fn board_10() {
    let mut list = [0; 12];
    assert_eq!(paint(&mut list, (0, 1), (0, 2), 1), 0);
    assert_eq!(paint(&mut list, (0, 1), (2, 4), 1), 0);
    assert_eq!(list, [0, 0, 4, 1, 0, 0, 0, 0, 0, 0, 0, 0]);
    assert_eq!(paint(&mut list[..8], (0, 1), (1, 3), 2), 7);
    assert_eq!(paint(&mut list, (0, 1), (1, 3), 2), 0);
    assert_eq!(list, [0, 0, 1, 1, 0, 1, 3, 2, 0, 3, 4, 1]);
    assert_eq!(paint(&mut list, (0, 1), (1, 3), 1), 0);
    assert_eq!(list, [0, 0, 4, 1, 0, 0, 0, 0, 0, 0, 0, 0]);
}

#[test]
fn board_11() {
    let list = [0, 2, 5, 1, 0, 7, 9, 1];
    let jump = |start, end| collision_jump(&list, (0, 1), (start, end));
    assert_eq!([jump(0, 3), jump(0, 8), jump(5, 7)], [Ok(Some(5)), Ok(Some(9)), Ok(None)]);
}

#[test]
fn file_of_board_4() {
    let mut file = vec![0, 0, 0, 52, 1, 0];
    for number in [0i16, 2, 0, 0, 2, 0, 3].into_iter().chain([1, 1, 0, 1, 1, 0].repeat(3)) {
        file.extend(number.to_be_bytes());
    }
    assert_eq!(text_of_file(&file), "ok 3\n0 0 1 0 1 0\n1 1 2 0 1 0\n2 0 1 1 2 0\ncols 0 2 0\nrows 0 2 0\n");
    file[4] = 2;
    assert_eq!(text_of_file(&file), "refused 12 0\n");
    assert_eq!(text_of_file(&file[..51]), "refused 12 0\n");
}
