//! The form of the counters in a written frame.

/// How smpCnt, confRev and smpSynch are written. Ordinary reading takes both forms.
#[derive(Clone, Copy, Debug, PartialEq, Eq)]
pub enum Form {
    /// In the fewest octets whose first is below 80 (hexadecimal), as every other integer of the
    /// frame: what the original writes.
    Shortest,
    /// smpCnt in two octets, confRev in four, smpSynch in one, always, as IEC 61850-9-2 has them.
    Fixed,
}

impl Form {
    /// `fixed`, as the library's functions take it.
    pub(crate) fn is_fixed(self) -> bool {
        self == Form::Fixed
    }
}
