//! Why a call was turned away.

use crate::sys::{ACCEPTED, MAX_ASDUS, MAX_CHANNELS, MAX_PDU, MAX_SETS};
use std::fmt;
use std::sync::LazyLock;

/// A refusal: its number, and the place, an octet's index from the buffer's start. The place is 0
/// from 7 to 11 and from 14 to 16. The numbers are the associated constants.
#[derive(Debug, Clone, Copy, PartialEq, Eq)]
pub struct Refusal {
    pub number: usize,
    pub place: usize,
}

/// The numbers with their sentences.
static SENTENCES: LazyLock<[(usize, String); 15]> = LazyLock::new(|| {
    let (thousands, rest) = (MAX_PDU / 1000, MAX_PDU % 1000);
    [
        (Refusal::ENDS_TOO_SOON, "The octets end too soon.".into()),
        (Refusal::BAD_LENGTH, "A length octet is 80, or 84 to FF.".into()),
        (Refusal::INTEGER_TOO_LONG, "An integer is too long for its field.".into()),
        (
            Refusal::TOO_LONG_TO_HOLD,
            format!(
                "noASDU is above {MAX_ASDUS}, or svID, datSet or security is too long to hold."
            ),
        ),
        (Refusal::GM_IDENTITY_TOO_LONG, "gmIdentity is above 8 octets.".into()),
        (Refusal::NOT_AS_WRITTEN, "The frame is not what the writer writes.".into()),
        (Refusal::NO_ROOM, "A lent buffer or array is too short.".into()),
        (Refusal::TOO_MANY_CHANNELS, format!("There are more than {MAX_CHANNELS} channels.")),
        (Refusal::BAD_DESCRIPTION, "The description is outside the limits.".into()),
        (Refusal::TOO_LONG_TO_WRITE, format!("The PDU is above {thousands},{rest:03} octets.")),
        (Refusal::VALUE_OUT_OF_RANGE, "A scaled value is below -2^31 or above 2^31.".into()),
        (
            Refusal::LENGTHS_DIFFER,
            "In an ASDU the length after 87 is not 8 times the channels.".into(),
        ),
        (
            Refusal::SET_NOT_ADDED,
            format!("The confRev is not higher than all held, or {MAX_SETS} data sets are held."),
        ),
        (
            Refusal::NO_SET,
            "No data set is held for the confRev of the first ASDU, or there is no ASDU.".into(),
        ),
        (Refusal::OTHER_CONF_REV, "A later ASDU has another confRev than the first.".into()),
    ]
});

impl Refusal {
    pub const ENDS_TOO_SOON: usize = 1;
    pub const BAD_LENGTH: usize = 2;
    pub const INTEGER_TOO_LONG: usize = 3;
    pub const TOO_LONG_TO_HOLD: usize = 4;
    pub const GM_IDENTITY_TOO_LONG: usize = 5;
    pub const NOT_AS_WRITTEN: usize = 6;
    pub const NO_ROOM: usize = 7;
    pub const TOO_MANY_CHANNELS: usize = 8;
    pub const BAD_DESCRIPTION: usize = 9;
    pub const TOO_LONG_TO_WRITE: usize = 10;
    pub const VALUE_OUT_OF_RANGE: usize = 11;
    pub const LENGTHS_DIFFER: usize = 13;
    pub const SET_NOT_ADDED: usize = 14;
    pub const NO_SET: usize = 15;
    pub const OTHER_CONF_REV: usize = 16;

    /// What the number says.
    pub fn sentence(&self) -> &'static str {
        let found = SENTENCES.iter().find(|(number, _)| *number == self.number);
        found.map_or("The call was refused.", |(_, sentence)| sentence)
    }

    /// The refusal whose sentence this is.
    pub(crate) fn of_sentence(sentence: &str, place: usize) -> Option<Refusal> {
        let (number, _) = SENTENCES.iter().find(|(_, one)| *one == sentence)?;
        Some(Refusal { number: *number, place })
    }

    /// What a call of the library answered: 0 is acceptance.
    pub(crate) fn check(number: usize, place: usize) -> Result<(), Refusal> {
        match number {
            ACCEPTED => Ok(()),
            _ => Err(Refusal { number, place }),
        }
    }
}

impl fmt::Display for Refusal {
    fn fmt(&self, f: &mut fmt::Formatter<'_>) -> fmt::Result {
        write!(f, "refused {} at {}: {}", self.number, self.place, self.sentence())
    }
}

impl std::error::Error for Refusal {}
