//! The file of a request and the text that the program writes for it.
use crate::place;

/// Records that the program lends for each list.
const PLACES: usize = 8192;

fn number(bytes: &[u8]) -> u16 {
    u16::from_be_bytes([bytes[0], bytes[1]])
}

/// The text for a file's bytes.
pub fn text_of_file(bytes: &[u8]) -> String {
    let refused = |number: u8, index: u16| format!("refused {number} {index}\n");
    // Length, version, flow, six counts, item count: without them there is no item count to be at odds with.
    if bytes.len() < 4 + 16 || u32::from_be_bytes([bytes[0], bytes[1], bytes[2], bytes[3]]) as usize != bytes.len() - 4
    {
        return refused(12, 0);
    }
    let (version, flow) = (bytes[4], bytes[5]);
    let counts = |at: usize| [0, 2, 4].map(|next| number(&bytes[at + next..]));
    let (columns, rows, count) = (counts(6), counts(12), number(&bytes[18..]) as usize);
    let items: Vec<i16> =
        bytes[20..].chunks(2).map(|pair| if pair.len() == 2 { number(pair) as i16 } else { 0 }).collect();
    if version != 1 || bytes.len() - 4 != 16 + 12 * count {
        return refused(12, 0);
    }
    let mut answers = vec![0; 5 * count];
    let (mut row_list, mut column_list) = (vec![0; 4 * PLACES], vec![0; 4 * PLACES]);
    match place(flow, columns, rows, &items, &mut answers, &mut row_list, &mut column_list) {
        Err((number, index)) => refused(number, index),
        Ok([columns, rows]) => {
            let mut text = format!("ok {count}\n");
            for (index, answer) in answers.chunks(5).enumerate() {
                let numbers: Vec<String> = answer.iter().map(|number| number.to_string()).collect();
                text += &format!("{index} {}\n", numbers.join(" "));
            }
            text += &format!("cols {} {} {}\n", columns[0], columns[1], columns[2]);
            text + &format!("rows {} {} {}\n", rows[0], rows[1], rows[2])
        }
    }
}
