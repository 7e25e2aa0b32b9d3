//! Data sets by confRev.

use crate::sys::*;
use crate::types::{SavDataSetConfig, SavValueConfig};
use crate::Refusal;

/// A store of up to [`MAX_SETS`] data sets, each under its confRev, each addition higher than all held.
///
/// An addition, taken or refused, changes no answer of [`crate::read_by_sets`] but 15, so a frame that
/// was read is read the same after later additions.
///
/// ```
/// use hopsickle::{read_by_sets, DataSets, Refusal, SavDataSetConfig};
///
/// let mut sets = DataSets::new();
/// assert_eq!(sets.add(1, &SavDataSetConfig::le_92()), Ok(1));
/// assert_eq!(sets.add(3, &SavDataSetConfig::default()), Ok(2));
/// let refusal = Refusal { number: Refusal::SET_NOT_ADDED, place: 0 };
/// assert_eq!(sets.add(2, &SavDataSetConfig::le_92()), Err(refusal));
/// assert_eq!(sets.get(1), Some(SavDataSetConfig::le_92()));
///
/// let refusal = Refusal { number: Refusal::ENDS_TOO_SOON, place: 0 };
/// assert_eq!(read_by_sets(&[], &sets).err(), Some(refusal));
/// ```
#[derive(Clone, Debug, PartialEq)]
pub struct DataSets {
    pub(crate) numbers: [u32; SET_NUMBERS],
    pub(crate) scales: [f32; SET_SCALES],
}

impl Default for DataSets {
    /// A store that holds no set.
    fn default() -> Self {
        DataSets { numbers: [0; SET_NUMBERS], scales: [0.0; SET_SCALES] }
    }
}

impl DataSets {
    /// A store that holds no set.
    pub fn new() -> Self {
        DataSets::default()
    }

    /// Adds a data set under a confRev that is higher than all held: how many sets are then held.
    /// Refused as 8 with more than [`MAX_CHANNELS`], then as 14 where the confRev isn't higher or
    /// [`MAX_SETS`] are held. A refusal leaves the store.
    pub fn add(&mut self, conf_rev: u32, set: &SavDataSetConfig) -> Result<usize, Refusal> {
        let scales: Vec<f32> = set.config.iter().map(|channel| channel.scale_factor).collect();
        let mut held = 0;
        let number = sets_add(&mut self.numbers, &mut self.scales, conf_rev, &scales, &mut held);
        Refusal::check(number, 0).map(|()| held)
    }

    /// How many sets are held.
    pub fn len(&self) -> usize {
        self.numbers[SETS_HELD] as usize
    }

    pub fn is_empty(&self) -> bool {
        self.len() == 0
    }

    /// The data set that is held under this confRev.
    pub fn get(&self, conf_rev: u32) -> Option<SavDataSetConfig> {
        let i = (0..self.len()).find(|i| self.numbers[set_conf_rev(*i)] == conf_rev)?;
        let scales = &self.scales[set_scale(i, 0)..];
        Some(data_set(&scales[..self.numbers[set_channels(i)] as usize]))
    }
}

/// The data set of these scale factors.
pub(crate) fn data_set(scales: &[f32]) -> SavDataSetConfig {
    SavDataSetConfig::new(scales.iter().copied().map(SavValueConfig::new).collect())
}
