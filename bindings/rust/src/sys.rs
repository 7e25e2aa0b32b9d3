//! The functions of libhopsickle.a, as include/hopsickle.h declares and describes them, the frame
//! readers over slices, and the places of a description in its arrays.

use crate::slices;
pub use crate::slices::{read_by_sets, read_checked, read_granted, sets_add};

extern "C" {
    pub fn hopsickle_is_smv(frame: *const u8, frame_len: usize) -> bool;

    pub fn hopsickle_header(
        frame: *const u8,
        frame_len: usize,
        numbers: *mut u32,
        numbers_len: usize,
        octets: *mut u8,
        octets_len: usize,
        place: *mut usize,
    ) -> usize;

    pub fn hopsickle_read(
        frame: *const u8,
        frame_len: usize,
        channels: usize,
        numbers: *mut u32,
        numbers_len: usize,
        octets: *mut u8,
        octets_len: usize,
        counts: *mut i32,
        counts_len: usize,
        qualities: *mut u32,
        qualities_len: usize,
        place: *mut usize,
    ) -> usize;

    pub fn hopsickle_read_checked(
        frame: *const u8,
        frame_len: usize,
        channels: usize,
        numbers: *mut u32,
        numbers_len: usize,
        octets: *mut u8,
        octets_len: usize,
        counts: *mut i32,
        counts_len: usize,
        qualities: *mut u32,
        qualities_len: usize,
        place: *mut usize,
    ) -> usize;

    pub fn hopsickle_read_granted(
        frame: *const u8,
        frame_len: usize,
        channels: usize,
        mask: u32,
        numbers: *mut u32,
        numbers_len: usize,
        octets: *mut u8,
        octets_len: usize,
        counts: *mut i32,
        counts_len: usize,
        qualities: *mut u32,
        qualities_len: usize,
        place: *mut usize,
    ) -> usize;

    pub fn hopsickle_decode(
        frame: *const u8,
        frame_len: usize,
        at: usize,
        channels: usize,
        numbers: *mut u32,
        numbers_len: usize,
        octets: *mut u8,
        octets_len: usize,
        counts: *mut i32,
        counts_len: usize,
        qualities: *mut u32,
        qualities_len: usize,
        place: *mut usize,
    ) -> usize;

    pub fn hopsickle_read_strict(
        frame: *const u8,
        frame_len: usize,
        channels: usize,
        fixed: bool,
        numbers: *mut u32,
        numbers_len: usize,
        octets: *mut u8,
        octets_len: usize,
        counts: *mut i32,
        counts_len: usize,
        qualities: *mut u32,
        qualities_len: usize,
        place: *mut usize,
    ) -> usize;

    pub fn hopsickle_values(
        scales: *const f32,
        channels: usize,
        no_asdu: u16,
        counts: *const i32,
        counts_len: usize,
        values: *mut f32,
        values_len: usize,
        written: *mut usize,
    ) -> usize;

    pub fn hopsickle_sets_add(
        sets: *mut u32,
        set_scales: *mut f32,
        conf_rev: u32,
        scales: *const f32,
        channels: usize,
        held: *mut usize,
    ) -> usize;

    pub fn hopsickle_read_by_sets(
        frame: *const u8,
        frame_len: usize,
        sets: *const u32,
        set_scales: *const f32,
        channels: *mut usize,
        scales: *mut f32,
        numbers: *mut u32,
        numbers_len: usize,
        octets: *mut u8,
        octets_len: usize,
        counts: *mut i32,
        counts_len: usize,
        qualities: *mut u32,
        qualities_len: usize,
        place: *mut usize,
    ) -> usize;

    pub fn hopsickle_write(
        numbers: *const u32,
        numbers_len: usize,
        octets: *const u8,
        octets_len: usize,
        channels: usize,
        fixed: bool,
        counts: *const i32,
        counts_len: usize,
        qualities: *const u32,
        qualities_len: usize,
        frame: *mut u8,
        frame_len: usize,
        size: *mut usize,
    ) -> usize;

    pub fn hopsickle_write_values(
        numbers: *const u32,
        numbers_len: usize,
        octets: *const u8,
        octets_len: usize,
        scales: *const f32,
        channels: usize,
        fixed: bool,
        values: *const f32,
        values_len: usize,
        qualities: *const u32,
        qualities_len: usize,
        frame: *mut u8,
        frame_len: usize,
        size: *mut usize,
    ) -> usize;

    pub fn hopsickle_size(
        numbers: *const u32,
        numbers_len: usize,
        octets: *const u8,
        octets_len: usize,
        channels: usize,
        fixed: bool,
        size: *mut usize,
    ) -> usize;
}

/// `hopsickle_read`, or, where `strict` is the form, `hopsickle_read_strict`, over slices.
#[inline]
#[allow(clippy::too_many_arguments)]
pub fn read(
    strict: Option<bool>,
    frame: &[u8],
    channels: usize,
    numbers: &mut [u32],
    octets: &mut [u8],
    counts: &mut [i32],
    qualities: &mut [u32],
    place: &mut usize,
) -> usize {
    let (n, o, c, q) = (numbers, octets, counts, qualities);
    match strict {
        None => slices::read(frame, channels, n, o, c, q, place),
        Some(fixed) => slices::read_strict(frame, channels, fixed, n, o, c, q, place),
    }
}

/// What a function answers where it accepts. [`crate::Refusal`] has the numbers of the refusals.
pub const ACCEPTED: usize = 0;

// The limits.

pub const MAX_ASDUS: usize = 8;
pub const MAX_CHANNELS: usize = 24;
/// Octets of svID, and of datSet.
pub const MAX_TEXT: usize = 127;
/// Octets.
pub const MAX_SECURITY: usize = 64;
/// Octets of a written PDU, from its tag to its end.
pub const MAX_PDU: usize = 1492;
/// A quality word is below this, which is a power of 2.
pub const QUALITY_LIMIT: u32 = 8192;
/// Data sets of a store.
pub const MAX_SETS: usize = 32;

// What follows from them.

/// Samples of all ASDUs.
pub const MAX_SAMPLES: usize = MAX_ASDUS * MAX_CHANNELS;
/// Octets of a written frame, with a VLAN tag.
pub const MAX_FRAME: usize = 26 + MAX_PDU;
/// Elements of a store's numbers.
pub const SET_NUMBERS: usize = 1 + 2 * MAX_SETS;
/// Elements of a store's scale factors.
pub const SET_SCALES: usize = MAX_SETS * MAX_CHANNELS;

pub const TAGGED: usize = 0;
pub const TPID: usize = 1;
pub const TCI: usize = 2;
pub const ETHER_TYPE: usize = 3;
pub const APPID: usize = 4;
pub const LENGTH: usize = 5;
pub const SIMULATION: usize = 6;
pub const SECURITY: usize = 7;
pub const SECURITY_LENGTH: usize = 8;
pub const NO_ASDU: usize = 9;
pub const HEAD_NUMBERS: usize = 10;
pub const HEADER_NUMBERS: usize = 6;

pub const SV_ID_LENGTH: usize = 0;
pub const DAT_SET: usize = 1;
pub const DAT_SET_LENGTH: usize = 2;
pub const SMP_CNT: usize = 3;
pub const CONF_REV: usize = 4;
pub const REFR_TM: usize = 5;
pub const SMP_SYNCH: usize = 6;
pub const SMP_RATE: usize = 7;
pub const SMP_RATE_VALUE: usize = 8;
pub const SMP_MOD: usize = 9;
pub const SMP_MOD_VALUE: usize = 10;
pub const GM_IDENTITY: usize = 11;
pub const ASDU_NUMBERS: usize = 12;

pub const DST_ADDR: usize = 0;
pub const SRC_ADDR: usize = 6;
pub const SECURITY_OCTETS: usize = SRC_ADDR + 6;
pub const HEAD_OCTETS: usize = SECURITY_OCTETS + MAX_SECURITY;
pub const HEADER_OCTETS: usize = SECURITY_OCTETS;

pub const SV_ID_OCTETS: usize = 0;
pub const DAT_SET_OCTETS: usize = SV_ID_OCTETS + MAX_TEXT;
pub const REFR_TM_OCTETS: usize = DAT_SET_OCTETS + MAX_TEXT;
pub const GM_IDENTITY_OCTETS: usize = REFR_TM_OCTETS + 8;
pub const ASDU_OCTETS: usize = GM_IDENTITY_OCTETS + 8;

/// The place of a number of ASDU `i`.
pub const fn number(i: usize, place: usize) -> usize {
    HEAD_NUMBERS + i * ASDU_NUMBERS + place
}

/// The place of an octet of ASDU `i`.
pub const fn octet(i: usize, place: usize) -> usize {
    HEAD_OCTETS + i * ASDU_OCTETS + place
}

pub const MAX_NUMBERS: usize = HEAD_NUMBERS + MAX_ASDUS * ASDU_NUMBERS;
pub const MAX_OCTETS: usize = HEAD_OCTETS + MAX_ASDUS * ASDU_OCTETS;

pub const SETS_HELD: usize = 0;

/// The place of the confRev of set `i` of a store.
pub const fn set_conf_rev(i: usize) -> usize {
    1 + 2 * i
}

/// The place of the channels of set `i` of a store.
pub const fn set_channels(i: usize) -> usize {
    2 + 2 * i
}

/// The place of the scale factor of channel `j` of set `i` of a store.
pub const fn set_scale(i: usize, j: usize) -> usize {
    i * MAX_CHANNELS + j
}
