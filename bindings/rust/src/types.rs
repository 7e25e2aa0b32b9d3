//! The records of the original, under its names: header, PDU, ASDU, samples, data set, quality and
//! time; and its two error types.

use crate::Refusal;
use std::fmt;

#[derive(Debug, Default, Clone, PartialEq)]
pub struct EthernetHeader {
    /// Destination address.
    pub dst_addr: [u8; 6],
    /// Source address.
    pub src_addr: [u8; 6],
    /// TPID of the VLAN tag, 81 00. With `tci` or not at all.
    pub tpid: Option<[u8; 2]>,
    /// TCI of the VLAN tag: priority and VLAN identifier.
    pub tci: Option<[u8; 2]>,
    /// 88 BA for sampled values.
    pub ether_type: [u8; 2],
    pub appid: [u8; 2],
    /// Length as read; writing doesn't look at it.
    pub length: [u8; 2],
}

/// A value with its quality, and the scale factor that it was or is to be scaled by.
#[derive(Debug, Clone, PartialEq)]
pub struct Sample {
    pub quality: Quality,
    pub value: f32,
    pub scale_factor: f32,
}

impl Sample {
    pub fn new(value: f32, quality: Quality, scale_factor: f32) -> Self {
        Sample { quality, value, scale_factor }
    }
}

#[derive(Debug, Default, Clone, PartialEq)]
pub struct SavAsdu {
    /// svID. Where the octets read aren't UTF-8, the lossy reading; [`crate::Frame::sv_id`] has the
    /// octets.
    pub msv_id: String,
    /// datSet, likewise ([`crate::Frame::dat_set`]).
    pub dat_set: Option<String>,
    pub smp_cnt: u16,
    pub conf_rev: u32,
    /// See [`Timestamp::from_bytes`].
    pub refr_tm: Option<[u8; 8]>,
    pub smp_synch: u8,
    pub smp_rate: Option<u16>,
    /// As many samples in each ASDU of a PDU.
    pub all_data: Vec<Sample>,
    pub smp_mod: Option<u16>,
    pub gm_identity: Option<[u8; 8]>,
}

#[derive(Debug, Default, Clone, PartialEq)]
pub struct SavPdu {
    /// The simulation mark.
    pub sim: bool,
    /// The number of ASDUs, that of `sav_asdu`.
    pub no_asdu: u16,
    pub security: Option<Vec<u8>>,
    pub sav_asdu: Vec<SavAsdu>,
}

/// A data set: the scale factor of each channel.
#[derive(Debug, Default, Clone, PartialEq)]
pub struct SavDataSetConfig {
    pub config: Vec<SavValueConfig>,
}

impl SavDataSetConfig {
    pub fn new(config: Vec<SavValueConfig>) -> Self {
        SavDataSetConfig { config }
    }

    /// Four currents, then four voltages, with the original's scale factors: 0.0001 for currents,
    /// where the 9-2LE guideline has 0.001, and 0.01 for voltages.
    pub fn le_92() -> Self {
        let scales = [0.0001, 0.0001, 0.0001, 0.0001, 0.01, 0.01, 0.01, 0.01];
        SavDataSetConfig { config: scales.map(SavValueConfig::new).to_vec() }
    }
}

#[derive(Debug, Default, Clone, PartialEq)]
pub struct SavValueConfig {
    pub scale_factor: f32,
}

impl SavValueConfig {
    pub fn new(scale_factor: f32) -> Self {
        SavValueConfig { scale_factor }
    }
}

#[derive(Debug, Default, Clone, Copy, PartialEq, Eq)]
pub enum Validity {
    #[default]
    Good = 0,
    Invalid = 1,
    Reserved = 2,
    Questionable = 3,
}

#[derive(Debug, Default, Clone, Copy, PartialEq, Eq)]
pub struct Quality {
    pub validity: Validity,
    pub overflow: bool,
    pub out_of_range: bool,
    pub bad_reference: bool,
    pub oscillatory: bool,
    pub failure: bool,
    pub old_data: bool,
    pub inconsistent: bool,
    pub inaccurate: bool,
    pub source_substituted: bool,
    pub test: bool,
    pub operator_blocked: bool,
}

impl Quality {
    /// Of the quality word of a sample: validity is bits 0 and 1, the flags are bits 2 to 12. All other
    /// bits are dropped.
    pub fn from_sv(quality_u32: u32) -> Self {
        let bit = |i: u32| quality_u32 >> i & 1 == 1;
        Quality {
            validity: match quality_u32 & 3 {
                0 => Validity::Good,
                1 => Validity::Invalid,
                2 => Validity::Reserved,
                _ => Validity::Questionable,
            },
            overflow: bit(2),
            out_of_range: bit(3),
            bad_reference: bit(4),
            oscillatory: bit(5),
            failure: bit(6),
            old_data: bit(7),
            inconsistent: bit(8),
            inaccurate: bit(9),
            source_substituted: bit(10),
            test: bit(11),
            operator_blocked: bit(12),
        }
    }

    /// The quality word.
    #[allow(clippy::wrong_self_convention)]
    pub fn to_sv(&self) -> u32 {
        let bit = |flag: bool, i: u32| u32::from(flag) << i;
        self.validity as u32
            | bit(self.overflow, 2)
            | bit(self.out_of_range, 3)
            | bit(self.bad_reference, 4)
            | bit(self.oscillatory, 5)
            | bit(self.failure, 6)
            | bit(self.old_data, 7)
            | bit(self.inconsistent, 8)
            | bit(self.inaccurate, 9)
            | bit(self.source_substituted, 10)
            | bit(self.test, 11)
            | bit(self.operator_blocked, 12)
    }

    /// Whether validity is good and no flag is set.
    pub fn is_good(&self) -> bool {
        self.to_sv() == 0
    }
}

#[derive(Debug, Default, Clone, Copy, PartialEq, Eq)]
pub struct TimeQuality {
    pub leap_second_known: bool,
    pub clock_failure: bool,
    pub clock_not_synchronized: bool,
    /// 5 bits.
    pub time_accuracy: u8,
}

impl TimeQuality {
    pub fn from_byte(byte: u8) -> Self {
        TimeQuality {
            leap_second_known: byte & 0x80 != 0,
            clock_failure: byte & 0x40 != 0,
            clock_not_synchronized: byte & 0x20 != 0,
            time_accuracy: byte & 0x1f,
        }
    }

    /// Of the accuracy, the low 5 bits.
    #[allow(clippy::wrong_self_convention)]
    pub fn to_byte(&self) -> u8 {
        u8::from(self.leap_second_known) << 7
            | u8::from(self.clock_failure) << 6
            | u8::from(self.clock_not_synchronized) << 5
            | self.time_accuracy & 0x1f
    }

    /// The accuracy, where it is 0 to 25.
    pub fn accuracy_bits(&self) -> Option<u8> {
        (self.time_accuracy <= 25).then_some(self.time_accuracy)
    }
}

/// refrTm.
#[derive(Debug, Clone, PartialEq)]
pub struct Timestamp {
    /// Since 1 January 1970.
    pub seconds: u32,
    /// Of a second, in parts of 2^24.
    pub fraction: u32,
    pub quality: TimeQuality,
}

impl Timestamp {
    pub fn from_bytes(bytes: [u8; 8]) -> Self {
        let [a, b, c, d, e, f, g, quality] = bytes;
        Timestamp {
            seconds: u32::from_be_bytes([a, b, c, d]),
            fraction: u32::from_be_bytes([0, e, f, g]),
            quality: TimeQuality::from_byte(quality),
        }
    }

    /// Of the fraction, the low 24 bits.
    pub fn to_bytes(&self) -> [u8; 8] {
        let [a, b, c, d] = self.seconds.to_be_bytes();
        let [_, e, f, g] = self.fraction.to_be_bytes();
        [a, b, c, d, e, f, g, self.quality.to_byte()]
    }

    /// The fraction in nanoseconds, rounded down; of a fraction of 2^24 or more the low 24 bits.
    pub fn fraction_as_nanos(&self) -> u32 {
        ((u64::from(self.fraction & 0xff_ffff) * 1_000_000_000) >> 24) as u32
    }
}

/// Why octets were refused: the sentence of the [`Refusal`], and its place.
#[derive(Debug, Clone, PartialEq, Eq)]
pub struct DecodeError {
    pub message: String,
    pub buffer_index: usize,
}

impl DecodeError {
    pub fn new(msg: &str, buffer_index: usize) -> Self {
        DecodeError { message: msg.to_string(), buffer_index }
    }

    /// The refusal; `None` for an error that wasn't made from one.
    pub fn refusal(&self) -> Option<Refusal> {
        Refusal::of_sentence(&self.message, self.buffer_index)
    }
}

impl From<Refusal> for DecodeError {
    fn from(refusal: Refusal) -> Self {
        DecodeError::new(refusal.sentence(), refusal.place)
    }
}

impl fmt::Display for DecodeError {
    fn fmt(&self, f: &mut fmt::Formatter<'_>) -> fmt::Result {
        write!(f, "at {}: {}", self.buffer_index, self.message)
    }
}

impl std::error::Error for DecodeError {}

/// Why a description was refused: the sentence of the [`Refusal`], and its place, which is 0.
/// `BufferTooSmall` is the original's; neither makes it.
#[derive(Debug, Clone, PartialEq, Eq)]
pub enum EncodeError {
    General { message: String, buffer_index: usize },
    BufferTooSmall { required: usize, available: usize },
}

impl EncodeError {
    pub fn new(msg: &str, buffer_index: usize) -> Self {
        EncodeError::General { message: msg.to_string(), buffer_index }
    }

    /// The refusal; `None` for an error that wasn't made from one.
    pub fn refusal(&self) -> Option<Refusal> {
        match self {
            EncodeError::General { message, buffer_index } => {
                Refusal::of_sentence(message, *buffer_index)
            }
            EncodeError::BufferTooSmall { .. } => None,
        }
    }
}

impl From<Refusal> for EncodeError {
    fn from(refusal: Refusal) -> Self {
        EncodeError::new(refusal.sentence(), refusal.place)
    }
}

impl fmt::Display for EncodeError {
    fn fmt(&self, f: &mut fmt::Formatter<'_>) -> fmt::Result {
        match self {
            EncodeError::General { message, buffer_index } => {
                write!(f, "at {buffer_index}: {message}")
            }
            EncodeError::BufferTooSmall { required, available } => {
                write!(f, "{required} octets are needed, and {available} are there")
            }
        }
    }
}

impl std::error::Error for EncodeError {}
