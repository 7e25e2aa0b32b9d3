//! The calls that are measured, each over the frames of a case again and again.

#[path = "../../bindings/rust/src/slices.rs"]
#[allow(dead_code)]
mod slices;

use crate::case::{Case, Flat, CONF_REV, FRAMES};
use hopsickle::{sys, Form};
use oracle::original::{decode_smv, encode_smv, ethernet_header};
use oracle::types as theirs;
use std::hint::black_box;

/// So many calls.
pub type Call<'a> = Box<dyn FnMut(usize) + 'a>;

// ---- the original

fn decode(case: &Case, i: usize) -> (theirs::EthernetHeader, theirs::SavPdu) {
    let frame = black_box(&case.frames[i % FRAMES].frame[..]);
    let mut header = theirs::EthernetHeader::default();
    let start = ethernet_header::decode_ethernet_header(&mut header, frame);
    let pdu = decode_smv::decode_smv(frame, start, black_box(&case.their_config));
    (header, pdu.expect("a frame"))
}

pub fn original_reading(case: &Case) -> Call<'_> {
    Box::new(|n| (0..n).for_each(|i| drop(black_box(decode(case, i)))))
}

pub fn original_strict(case: &Case) -> Call<'_> {
    Box::new(|n| {
        for i in 0..n {
            let (header, pdu) = decode(case, i);
            let again = encode_smv::encode_smv(&header, &pdu).expect("a description");
            black_box((header, pdu, again));
        }
    })
}

pub fn original_writing(case: &Case) -> Call<'_> {
    Box::new(|n| {
        for i in 0..n {
            let one = black_box(&case.frames[i % FRAMES]);
            black_box(encode_smv::encode_smv(&one.their_header, &one.their_pdu).is_ok());
        }
    })
}

// ---- the flat functions, into arrays that are not cleared between calls

/// Reads a frame by a function of `sys`.
fn read_by(
    frame: &[u8],
    to: &mut Flat,
    call: impl FnOnce(&[u8], &mut [u32], &mut [u8], &mut [i32], &mut [u32], &mut usize) -> usize,
) {
    let mut place = 0;
    let Flat { numbers, octets, counts, qualities, .. } = &mut *to;
    let number = call(black_box(frame), numbers, octets, counts, qualities, &mut place);
    assert_eq!(number, 0);
    black_box(to);
}

/// Reads a frame: the ordinary way, or strictly, shortest or fixed.
fn read(strict: Option<bool>, case: &Case, i: usize, to: &mut Flat) {
    let one = &case.frames[i % FRAMES];
    let frame = if strict == Some(true) { &one.fixed[..] } else { &one.frame[..] };
    read_by(frame, to, |s, n, o, c, q, place| {
        sys::read(strict, s, case.shape.channels, n, o, c, q, place)
    });
}

pub fn flat_reading(case: &Case) -> Call<'_> {
    let mut to = Flat::new();
    Box::new(move |n| (0..n).for_each(|i| read(None, case, i, &mut to)))
}

pub fn flat_checked(case: &Case) -> Call<'_> {
    let mut to = Flat::new();
    Box::new(move |n| {
        for i in 0..n {
            let frame = &case.frames[i % FRAMES].frame;
            read_by(frame, &mut to, |s, n, o, c, q, place| {
                sys::read_checked(s, case.shape.channels, n, o, c, q, place)
            });
        }
    })
}

pub fn flat_strict(case: &Case) -> Call<'_> {
    let mut to = Flat::new();
    Box::new(move |n| (0..n).for_each(|i| read(Some(false), case, i, &mut to)))
}

pub fn flat_strict_fixed(case: &Case) -> Call<'_> {
    let mut to = Flat::new();
    Box::new(move |n| (0..n).for_each(|i| read(Some(true), case, i, &mut to)))
}

/// Reads a frame with the channels of a mask.
fn read_granted(mask: u32, case: &Case, i: usize, to: &mut Flat) {
    let frame = &case.frames[i % FRAMES].frame;
    read_by(frame, to, |s, n, o, c, q, place| {
        sys::read_granted(s, case.shape.channels, black_box(mask), n, o, c, q, place)
    });
}

pub fn flat_granted_all(case: &Case) -> Call<'_> {
    let mut to = Flat::new();
    Box::new(move |n| (0..n).for_each(|i| read_granted(u32::MAX, case, i, &mut to)))
}

/// The last channel alone.
pub fn flat_granted_one(case: &Case) -> Call<'_> {
    let mut to = Flat::new();
    let mask = 1 << (case.shape.channels - 1);
    Box::new(move |n| (0..n).for_each(|i| read_granted(mask, case, i, &mut to)))
}

/// A store of a set for each confRev up to that of the frames.
fn store(case: &Case) -> ([u32; sys::SET_NUMBERS], [f32; sys::SET_SCALES]) {
    let (mut sets, mut set_scales) = ([0; sys::SET_NUMBERS], [0.0; sys::SET_SCALES]);
    for conf_rev in 1..=CONF_REV {
        let mut held = 0;
        let number = sys::sets_add(&mut sets, &mut set_scales, conf_rev, &case.scales, &mut held);
        assert_eq!(number, 0);
    }
    (sets, set_scales)
}

pub fn flat_by_sets(case: &Case) -> Call<'_> {
    let mut to = Flat::new();
    let (sets, set_scales) = store(case);
    Box::new(move |n| {
        for i in 0..n {
            let (mut channels, mut scales) = (0, [0.0; sys::MAX_CHANNELS]);
            let (sets, set_scales) = black_box((&sets, &set_scales));
            let frame = &case.frames[i % FRAMES].frame;
            read_by(frame, &mut to, |s, n, o, c, q, place| {
                sys::read_by_sets(
                    s,
                    sets,
                    set_scales,
                    &mut channels,
                    &mut scales,
                    n,
                    o,
                    c,
                    q,
                    place,
                )
            });
            black_box((channels, scales));
        }
    })
}

pub fn flat_reading_values(case: &Case) -> Call<'_> {
    let mut to = Flat::new();
    Box::new(move |n| {
        for i in 0..n {
            read(None, case, i, &mut to);
            let no_asdu = to.numbers[sys::NO_ASDU] as u16;
            let Flat { counts, values, .. } = &mut to;
            let number = slices::values(&case.scales, no_asdu, counts, values, &mut 0);
            assert_eq!(number, 0);
            black_box(&mut to);
        }
    })
}

/// Writes a frame by a function of the library.
fn write_by(
    case: &Case,
    i: usize,
    frame: &mut [u8],
    call: impl FnOnce(&Flat, &mut [u8], &mut usize) -> usize,
) {
    let flat = black_box(&case.frames[i % FRAMES].flat);
    let mut size = 0;
    let number = call(flat, frame, &mut size);
    assert_eq!(number, 0);
    black_box((frame, size));
}

fn write(fixed: bool, case: &Case, i: usize, frame: &mut [u8]) {
    write_by(case, i, frame, |flat, frame, size| {
        let Flat { numbers: n, octets: o, counts: c, qualities: q, .. } = flat;
        slices::write(n, o, case.shape.channels, fixed, c, q, frame, size)
    });
}

pub fn flat_writing(case: &Case) -> Call<'_> {
    let mut frame = [0; sys::MAX_FRAME];
    Box::new(move |n| (0..n).for_each(|i| write(false, case, i, &mut frame)))
}

pub fn flat_writing_fixed(case: &Case) -> Call<'_> {
    let mut frame = [0; sys::MAX_FRAME];
    Box::new(move |n| (0..n).for_each(|i| write(true, case, i, &mut frame)))
}

pub fn flat_writing_values(case: &Case) -> Call<'_> {
    let mut frame = [0; sys::MAX_FRAME];
    Box::new(move |n| {
        for i in 0..n {
            write_by(case, i, &mut frame, |flat, frame, size| {
                let Flat { numbers: n, octets: o, values: v, qualities: q, .. } = flat;
                slices::write_values(n, o, &case.scales, false, v, q, frame, size)
            });
        }
    })
}

// ---- the bindings

pub fn rust_reading(case: &Case) -> Call<'_> {
    Box::new(|n| {
        for i in 0..n {
            let frame = black_box(&case.frames[i % FRAMES].frame[..]);
            let mut header = hopsickle::EthernetHeader::default();
            let start = hopsickle::decode_ethernet_header(&mut header, frame);
            let pdu = hopsickle::decode_smv(frame, start, black_box(&case.config));
            black_box((header, pdu.expect("a frame")));
        }
    })
}

pub fn rust_strict(case: &Case) -> Call<'_> {
    let mut read = hopsickle::Frame::default();
    Box::new(move |n| {
        for i in 0..n {
            let frame = black_box(&case.frames[i % FRAMES].frame[..]);
            read.read_strict(frame, black_box(&case.config), Form::Shortest).expect("a frame");
            black_box((read.header(), read.pdu()));
        }
    })
}

pub fn rust_writing(case: &Case) -> Call<'_> {
    Box::new(|n| {
        for i in 0..n {
            let one = black_box(&case.frames[i % FRAMES]);
            let frame =
                hopsickle::encode_counts(&one.header, &one.pdu, &one.counts, Form::Shortest);
            black_box(frame.is_ok());
        }
    })
}

pub fn rust_writing_values(case: &Case) -> Call<'_> {
    Box::new(|n| {
        for i in 0..n {
            let one = black_box(&case.frames[i % FRAMES]);
            black_box(hopsickle::encode_smv(&one.header, &one.pdu).is_ok());
        }
    })
}
