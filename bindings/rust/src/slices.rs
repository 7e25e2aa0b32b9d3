//! The functions of the library over slices. `sys` has some of them under public names; the tests and
//! bench/ have this file as a module of their own, beside `sys`.

use super::sys::*;

/// Defines functions over slices by functions of the library, whose parameters they have in the same
/// order: a slice stands for a pointer and a number of elements, an array for a pointer alone.
macro_rules! over_slices {
    ($($(#[$note:meta])* fn $name:ident($($parameters:tt)*) = $function:ident;)*) => {$(
        $(#[$note])*
        #[inline]
        #[allow(clippy::too_many_arguments)]
        pub fn $name($($parameters)*) -> usize {
            over_slices!(@ $function() $($parameters)*,)
        }
    )*};
    // What is handed over for the parameters so far, and the parameters that are left.
    (@ $function:ident($($given:expr),*) $name:ident: &[$of:ty], $($left:tt)*) => {
        over_slices!(@ $function($($given,)* $name.as_ptr(), $name.len()) $($left)*)
    };
    (@ $function:ident($($given:expr),*) $name:ident: &mut [$of:ty], $($left:tt)*) => {
        over_slices!(@ $function($($given,)* $name.as_mut_ptr(), $name.len()) $($left)*)
    };
    (@ $function:ident($($given:expr),*) $name:ident: &[$of:ty; $n:ident], $($left:tt)*) => {
        over_slices!(@ $function($($given,)* $name.as_ptr()) $($left)*)
    };
    (@ $function:ident($($given:expr),*) $name:ident: &mut [$of:ty; $n:ident], $($left:tt)*) => {
        over_slices!(@ $function($($given,)* $name.as_mut_ptr()) $($left)*)
    };
    (@ $function:ident($($given:expr),*) $name:ident: $of:ty, $($left:tt)*) => {
        over_slices!(@ $function($($given,)* $name) $($left)*)
    };
    (@ $function:ident($($given:expr),*)) => {
        // SAFETY: every pointer is that of a slice of as many elements as are named after it, of an
        // array of the fixed length or of a number, and those to be written are borrowed exclusively.
        unsafe { $function($($given),*) }
    };
}

/// The same for readers of samples, whose last parameters are the arrays to be filled and the place.
macro_rules! readers {
    ($($(#[$note:meta])* fn $name:ident($($own:tt)*) = $function:ident;)*) => {
        over_slices! {$(
            $(#[$note])*
            fn $name(
                $($own)*, numbers: &mut [u32], octets: &mut [u8], counts: &mut [i32],
                qualities: &mut [u32], place: &mut usize
            ) = $function;
        )*}
    };
}

readers! {
    /// `hopsickle_read` over slices.
    fn read(frame: &[u8], channels: usize) = hopsickle_read;

    /// `hopsickle_read_checked` over slices.
    fn read_checked(frame: &[u8], channels: usize) = hopsickle_read_checked;

    /// `hopsickle_read_granted` over slices: of the samples, those of the channels whose bit of `mask` is
    /// set.
    fn read_granted(frame: &[u8], channels: usize, mask: u32) = hopsickle_read_granted;

    /// `hopsickle_read_strict` over slices.
    fn read_strict(frame: &[u8], channels: usize, fixed: bool) = hopsickle_read_strict;

    /// `hopsickle_read_by_sets` over slices: `channels` and `scales` are those of the set that is handed
    /// back.
    fn read_by_sets(
        frame: &[u8], sets: &[u32; SET_NUMBERS], set_scales: &[f32; SET_SCALES],
        channels: &mut usize, scales: &mut [f32; MAX_CHANNELS]
    ) = hopsickle_read_by_sets;

    /// `hopsickle_decode` over slices.
    fn decode(frame: &[u8], at: usize, channels: usize) = hopsickle_decode;
}

over_slices! {
    /// `hopsickle_header` over slices.
    fn header(
        frame: &[u8], numbers: &mut [u32], octets: &mut [u8], place: &mut usize
    ) = hopsickle_header;

    /// `hopsickle_values` over slices: one scale factor for each channel.
    fn values(
        scales: &[f32], no_asdu: u16, counts: &[i32], values: &mut [f32], written: &mut usize
    ) = hopsickle_values;

    /// `hopsickle_sets_add` over slices: one scale factor for each channel.
    fn sets_add(
        sets: &mut [u32; SET_NUMBERS], set_scales: &mut [f32; SET_SCALES], conf_rev: u32,
        scales: &[f32], held: &mut usize
    ) = hopsickle_sets_add;

    /// `hopsickle_write` over slices.
    fn write(
        numbers: &[u32], octets: &[u8], channels: usize, fixed: bool,
        counts: &[i32], qualities: &[u32], frame: &mut [u8], size: &mut usize
    ) = hopsickle_write;

    /// `hopsickle_write_values` over slices: one scale factor for each channel.
    fn write_values(
        numbers: &[u32], octets: &[u8], scales: &[f32], fixed: bool,
        values: &[f32], qualities: &[u32], frame: &mut [u8], size: &mut usize
    ) = hopsickle_write_values;

    /// `hopsickle_size` over slices.
    fn size(
        numbers: &[u32], octets: &[u8], channels: usize, fixed: bool, size: &mut usize
    ) = hopsickle_size;
}
