//! Our side of the comparison: each call gives nothing where it is not switched on.

type Span = (i16, i16);
type Counts = [u16; 3];
type Placed = Result<[Counts; 2], (u8, u16)>;

#[derive(Clone, Copy)]
pub struct Ours {
    pub on: bool,
}

/// The call's answer if its feature is on and the run asks for our side.
macro_rules! ours {
    ($self:ident, $feature:literal, $call:expr) => {{
        #[cfg(feature = $feature)]
        if $self.on {
            return Some($call);
        }
        None
    }};
}

#[cfg_attr(not(all(feature = "lists", feature = "placement")), allow(unused_variables))]
impl Ours {
    pub fn origin_zero_line(self, css_line: i16, explicit: u16) -> Option<Result<i16, u8>> {
        ours!(self, "library", ours::origin_zero_line(css_line, explicit))
    }

    pub fn css_line(self, line: i16, explicit: u16) -> Option<Result<i16, u8>> {
        ours!(self, "library", ours::css_line(line, explicit))
    }

    pub fn track_index(self, counts: Counts, line: i16) -> Option<Result<Option<u32>, u8>> {
        ours!(self, "library", ours::track_index(counts, line))
    }

    pub fn paint(self, list: &mut [i16], tracks: Span, lines: Span, state: i16) -> Option<u8> {
        ours!(self, "lists", ours::paint(list, tracks, lines, state))
    }

    pub fn collision_jump(self, list: &[i16], tracks: Span, lines: Span) -> Option<Result<Option<i16>, u8>> {
        ours!(self, "lists", ours::collision_jump(list, tracks, lines))
    }

    pub fn occupied_track_jump(self, list: &[i16], tracks: Span) -> Option<Result<Option<i16>, u8>> {
        ours!(self, "lists", ours::occupied_track_jump(list, tracks))
    }

    pub fn records_of_track(self, rows: &[i16], columns: &[i16], axis: u8, track: i16) -> Option<(usize, usize)> {
        ours!(self, "lists", ours::records_of_track(rows, columns, axis, track))
    }

    #[allow(clippy::too_many_arguments)]
    pub fn place(
        self,
        flow: u8,
        counts: [Counts; 2],
        items: &[i16],
        answers: &mut [i16],
        row_list: &mut [i16],
        column_list: &mut [i16],
    ) -> Option<Placed> {
        ours!(self, "placement", ours::place(flow, counts[0], counts[1], items, answers, row_list, column_list))
    }

    /// The sides that a part compares.
    pub fn sides(self, feature: &str) -> &'static str {
        let linked = match feature {
            "library" => cfg!(feature = "library"),
            "lists" => cfg!(feature = "lists"),
            _ => cfg!(feature = "placement"),
        };
        if linked && self.on {
            "ours, plain, original"
        } else {
            "plain, original"
        }
    }
}
