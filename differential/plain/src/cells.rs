//! Cells and their states, one of 0, 1, 2. Only lines at which something begins or ends bound a cell here:
//! between two neighbours among them all cells are alike, so the whole limited grid stays small.

pub struct Cells {
    tracks: Vec<i32>,
    lines: Vec<i32>,
    states: Vec<u8>,
    /// Records in each track of a band, and in all tracks.
    of_band: Vec<usize>,
    total: usize,
}

fn sorted(mut lines: Vec<i32>) -> Vec<i32> {
    lines.sort_unstable();
    lines.dedup();
    lines
}

impl Cells {
    pub fn new(tracks: Vec<i32>, lines: Vec<i32>) -> Self {
        let (tracks, lines) = (sorted(tracks), sorted(lines));
        let bands = tracks.len().saturating_sub(1);
        let width = lines.len().saturating_sub(1);
        Cells { tracks, lines, states: vec![0; bands * width], of_band: vec![0; bands], total: 0 }
    }

    fn width(&self) -> usize {
        self.lines.len().saturating_sub(1)
    }

    fn band(&self, band: usize) -> &[u8] {
        &self.states[band * self.width()..(band + 1) * self.width()]
    }

    /// Bands and cells of an area. Its lines must be among the chosen ones.
    fn part(chosen: &[i32], span: (i32, i32)) -> std::ops::Range<usize> {
        let place = |line: i32| chosen.binary_search(&line).expect("a chosen line");
        place(span.0)..place(span.1)
    }

    pub fn paint(&mut self, tracks: (i32, i32), lines: (i32, i32), state: u8) {
        let cells = Self::part(&self.lines, lines);
        let width = self.width();
        for band in Self::part(&self.tracks, tracks) {
            self.states[band * width..][cells.clone()].fill(state);
            let count = runs(self.band(band)).count();
            let height = (self.tracks[band + 1] - self.tracks[band]) as usize;
            self.total = self.total + count * height - self.of_band[band] * height;
            self.of_band[band] = count;
        }
    }

    /// How many records the list rules need.
    pub fn count(&self) -> usize {
        self.total
    }

    /// The records that the list rules need, sorted by track, then start.
    pub fn records(&self) -> Vec<[i16; 4]> {
        let mut records = Vec::new();
        for band in 0..self.of_band.len() {
            for track in self.tracks[band]..self.tracks[band + 1] {
                for (from, to, state) in runs(self.band(band)) {
                    records.push([track as i16, self.lines[from] as i16, self.lines[to] as i16, state as i16]);
                }
            }
        }
        records
    }

    /// The largest end, over the crossed tracks, of the run of like cells that the last occupied cell is in.
    pub fn collision_jump(&self, tracks: (i32, i32), lines: (i32, i32)) -> Option<i32> {
        let cells = Self::part(&self.lines, lines);
        let of_band = |band: usize| {
            let states = self.band(band);
            let last = cells.clone().rev().find(|&cell| states[cell] != 0)?;
            let like = states[last..].iter().take_while(|&&state| state == states[last]).count();
            Some(self.lines[last + like])
        };
        Self::part(&self.tracks, tracks).filter_map(of_band).max()
    }

    /// One past the last track of the span with an occupied cell.
    pub fn occupied_track_jump(&self, tracks: (i32, i32)) -> Option<i32> {
        let occupied = |band: &usize| self.band(*band).iter().any(|&state| state != 0);
        Self::part(&self.tracks, tracks).rev().find(occupied).map(|band| self.tracks[band + 1])
    }
}

/// The longest runs of cells of one state other than 0: first cell, one past the last, state.
fn runs(states: &[u8]) -> impl Iterator<Item = (usize, usize, u8)> + '_ {
    let mut cell = 0;
    std::iter::from_fn(move || {
        while cell < states.len() && states[cell] == 0 {
            cell += 1;
        }
        if cell == states.len() {
            return None;
        }
        let (from, state) = (cell, states[cell]);
        while cell < states.len() && states[cell] == state {
            cell += 1;
        }
        Some((from, cell, state))
    })
}
