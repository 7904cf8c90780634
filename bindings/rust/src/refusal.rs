// A refusal by number.
use core::fmt;

/// Why a call was refused. Nothing was written, and the position is the one before the call; the same call is refused again.
///
/// From the bits, the first fault met in reading:
///
/// | number | name | figure | when |
/// |---|---|---|---|
/// | 1 | `Truncated` | | no bit is left where a code should begin, or fewer are left than a field has |
/// | 2 | `InvalidDcSize` | the window | the bits that are left neither begin with a code of a DC size nor begin one |
/// | 3 | `MarkerBitMissing` | | the marker after a DC difference of more than 8 bits is 0 |
/// | 4 | `InvalidTcoef` | the window | the bits that are left neither begin with a code of a coefficient nor begin one |
/// | 5 | `EscapeMarkerBitMissing` | | a marker inside an escape is 0 |
/// | 6 | `ReservedEscapeLevel` | | an escape's level is 0 or -2048 |
/// | 7 | `RvlcEscapeDelimiterMissing` | the four bits | the delimiter of a reversible escape is not 0000 |
/// | 8 | `Overflow` | the landing | an event lands at place 64 or beyond; any other fault in the same list comes before it |
/// | 16 | `InvalidHeader` | | the bits that are left neither begin with a code of a header's mcbpc or cbpy nor begin one |
/// | 17 | `EndedInsideCode` | | all bits that are left begin a code that has more |
///
/// 1 and 17 say that the data stopped, 2 to 8 and 16 that it is bad: [`Refusal::stopped`].
///
/// From the state, before any bit is read; the figure is 0:
///
/// | number | name | when |
/// |---|---|---|
/// | 9 | `NotCoded` | the header says that the macroblock is not coded |
/// | 10 | `NotIntra` | the header's type is missing or inter |
/// | 11 | `OutOfRange` | a width outside 1 to 45, a height outside 1 to 36, more than 1,048,576 bytes, a start past their end |
/// | 12 | `Context` | a quantiser outside 1 to 31, a depth outside 4 to 12, a zero in the matrix by method 1 |
/// | 13 | `Predictor` | a neighbour's DC, AC value or quantiser is out of range |
/// | 14 | `TooShort` | lent memory is too short |
/// | 15 | `Complete` | all macroblocks of the picture were accepted |
///
/// docs/REFUSALS.md of the repository says it in full.
#[derive(Clone, Copy, Debug, PartialEq, Eq)]
pub struct Refusal {
    /// 1 to 17.
    pub number: u32,
    /// The window of 2, 4 and 7, the number that its bits write; the landing of 8; else 0.
    pub figure: u32,
}

impl Refusal {
    /// The name of the number, as in the table above.
    ///
    /// ```
    /// let refusal = vaxembro::Refusal { number: 8, figure: 64 };
    /// assert_eq!(refusal.name(), "Overflow");
    /// assert_eq!(refusal.to_string(), "refused by 8 Overflow, landing 64");
    /// ```
    pub const fn name(&self) -> &'static str {
        match self.number {
            1 => "Truncated",
            2 => "InvalidDcSize",
            3 => "MarkerBitMissing",
            4 => "InvalidTcoef",
            5 => "EscapeMarkerBitMissing",
            6 => "ReservedEscapeLevel",
            7 => "RvlcEscapeDelimiterMissing",
            8 => "Overflow",
            9 => "NotCoded",
            10 => "NotIntra",
            11 => "OutOfRange",
            12 => "Context",
            13 => "Predictor",
            14 => "TooShort",
            15 => "Complete",
            16 => "InvalidHeader",
            17 => "EndedInsideCode",
            _ => "Unknown",
        }
    }

    /// Whether the data stopped, by 1 or 17: it may be fetched again, where 2 to 8 and 16 say that it is bad.
    ///
    /// That is no promise that more bits would help: a list that lands past place 63, or a reserved level before its last marker, is
    /// told so too where the bits end first.
    ///
    /// ```
    /// assert!(vaxembro::Refusal { number: 17, figure: 0 }.stopped());
    /// assert!(!vaxembro::Refusal { number: 2, figure: 0 }.stopped());
    /// ```
    pub const fn stopped(&self) -> bool {
        matches!(self.number, 1 | 17)
    }
}

impl fmt::Display for Refusal {
    fn fmt(&self, f: &mut fmt::Formatter<'_>) -> fmt::Result {
        write!(f, "refused by {} {}", self.number, self.name())?;
        match self.number {
            2 | 4 | 7 => write!(f, ", window {}", self.figure),
            8 => write!(f, ", landing {}", self.figure),
            _ => Ok(()),
        }
    }
}

impl core::error::Error for Refusal {}
