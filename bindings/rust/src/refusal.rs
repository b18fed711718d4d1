use core::fmt;

/// Why a call was refused: the rules' number, and the index of the item where the number names one (else 0).
#[derive(Clone, Copy, Debug, PartialEq, Eq, Hash)]
pub struct Refusal {
    /// The number, 1 to 11.
    pub number: u8,
    /// The item's index for 6, 7 and 8 of a placement; else 0.
    pub index: usize,
}

impl Refusal {
    /// No refusal for number 0.
    pub(crate) fn told(number: u8, index: usize) -> Result<(), Refusal> {
        match number {
            0 => Ok(()),
            number => Err(Refusal { number, index }),
        }
    }
}

impl fmt::Display for Refusal {
    /// ```
    /// let refusal = hoarbale::origin_zero_line(0, 12).unwrap_err();
    /// assert_eq!(refusal.to_string(), "refusal 11: a line or an explicit count is out of range");
    /// ```
    fn fmt(&self, f: &mut fmt::Formatter<'_>) -> fmt::Result {
        let number = self.number;
        let index = self.index;
        match number {
            1 => write!(f, "refusal 1: the flow is unknown"),
            2 => write!(f, "refusal 2: there are more than 2000 items"),
            3 => write!(f, "refusal 3: track counts are outside the limits"),
            4 => write!(f, "refusal 4: there are fewer answer places than items"),
            5 => write!(f, "refusal 5: a list is too long"),
            6 => write!(f, "refusal 6: item {index} breaks its rules"),
            7 => write!(f, "refusal 7: the row list, or the only list lent, has no room at item {index}"),
            8 => write!(f, "refusal 8: the column list has no room at item {index}"),
            9 => write!(f, "refusal 9: the list breaks the list rules"),
            10 => write!(f, "refusal 10: the area is bad"),
            11 => write!(f, "refusal 11: a line or an explicit count is out of range"),
            _ => write!(f, "refusal {number}"),
        }
    }
}

impl core::error::Error for Refusal {}
