//! The cases of document 01's "Octets to hold against", put to the original.

use crate::answer::{answer, ACCEPTED, REFUSED};
use crate::hex::hex;
use crate::layout::{asked, described, Asdu, Header, Pdu, Sample};
use std::io;

pub const FRAME: [u8; 53] = [
    0x01, 0x0c, 0xcd, 0x04, 0x00, 0x01, 0x00, 0x00, 0x00, 0x00, 0x00, 0x02, 0x88, 0xba, 0x40, 0x00,
    0x00, 0x27, 0x00, 0x00, 0x00, 0x00, 0x60, 0x1d, 0x80, 0x01, 0x01, 0xa2, 0x18, 0x30, 0x16, 0x80,
    0x01, 0x41, 0x82, 0x01, 0x05, 0x83, 0x01, 0x01, 0x85, 0x01, 0x02, 0x87, 0x08, 0x00, 0x00, 0x03,
    0xe8, 0x00, 0x00, 0x00, 0x00,
];

/// The header of that frame, without its Length.
pub fn frame_header() -> Header {
    Header {
        destination: [0x01, 0x0c, 0xcd, 0x04, 0x00, 0x01],
        source: [0, 0, 0, 0, 0, 2],
        ether_type: [0x88, 0xba],
        appid: [0x40, 0x00],
        ..Header::default()
    }
}

/// Its ASDU, with a sample's value or count as given.
pub fn frame_asdu(value: u32) -> Asdu {
    Asdu {
        sv_id: b"A".to_vec(),
        smp_cnt: 5,
        conf_rev: 1,
        smp_synch: 2,
        samples: vec![Sample { value, scale: 1f32.to_bits(), quality: 0 }],
        ..Asdu::default()
    }
}

/// A PDU of these ASDUs.
pub fn pdu_of(asdus: Vec<Asdu>) -> Pdu {
    Pdu { no_asdu: asdus.len() as u16, asdus, ..Pdu::default() }
}

/// A case, what document 01 says, the request, and how its answer is told.
pub struct Case {
    name: String,
    said: String,
    pub kind: u8,
    pub request: Vec<u8>,
    tell: fn(&[u8]) -> String,
}

fn case(name: &str, said: &str, kind: u8, request: Vec<u8>, tell: fn(&[u8]) -> String) -> Case {
    Case { name: name.into(), said: said.into(), kind, request, tell }
}

/// Octets after the tag, as far as the writer came.
fn after_tag(answer: &[u8]) -> String {
    let end = u64::from_be_bytes(answer[..8].try_into().unwrap_or_default()) as usize;
    hex(&answer[9..8 + end])
}

fn integer_octets(answer: &[u8]) -> String {
    hex(&answer[1..])
}

fn unsigned(answer: &[u8]) -> String {
    u32::from_be_bytes(answer[..4].try_into().unwrap_or_default()).to_string()
}

fn signed(answer: &[u8]) -> String {
    i32::from_be_bytes(answer[..4].try_into().unwrap_or_default()).to_string()
}

fn float(answer: &[u8]) -> String {
    f32::from_bits(u32::from_be_bytes(answer[..4].try_into().unwrap_or_default())).to_string()
}

pub fn write_length(value: u64) -> Vec<u8> {
    [&[0x30][..], &value.to_be_bytes(), &8u32.to_be_bytes(), &[0; 8]].concat()
}

pub fn write_u16(value: u16) -> Vec<u8> {
    [&[0x82, 2, 0, 0][..], &value.to_be_bytes()].concat()
}

pub fn read_u16(content: &[u8]) -> Vec<u8> {
    [&[2][..], &[0; 8], &(content.len() as u64).to_be_bytes(), content].concat()
}

pub fn floats(first: u32, scale: f32) -> Vec<u8> {
    [first, scale.to_bits()].map(u32::to_be_bytes).concat()
}

/// A frame to read, with one channel at scale 1.
pub fn one_channel(frame: &[u8]) -> Vec<u8> {
    asked(&[1.0], frame)
}

pub fn all() -> Vec<Case> {
    let mut cases = vec![];
    for (name, value, said) in [
        ("length 127*", 127, "7f"),
        ("length 128*", 128, "8180"),
        ("length 256", 256, "820100"),
        ("length 65,534*", 65_534, "82fffe"),
        ("length 65,535*", 65_535, "8300ffff"),
        ("length 2^24", 1 << 24, "refused 10, place 0"),
    ] {
        cases.push(case(name, said, b'l', write_length(value), after_tag));
    }
    for (name, value, said) in [
        ("smpCnt 0", 0, "820100"),
        ("smpCnt 127*", 127, "82017f"),
        ("smpCnt 128*", 128, "82020080"),
        ("smpCnt 65,535*", 65_535, "820300ffff"),
    ] {
        cases.push(case(name, said, b'u', write_u16(value), integer_octets));
    }
    for (name, content, said) in [
        ("80 read as 16 bits*", &[0x80][..], "65408"),
        ("00 FF 80 read as 16 bits*", &[0x00, 0xff, 0x80], "65408"),
        ("00 7F FF read as 16 bits*", &[0x00, 0x7f, 0xff], "refused 3, place 0"),
    ] {
        cases.push(case(name, said, b'r', read_u16(content), unsigned));
    }
    for (name, value, scale, said) in [
        ("-0.5 written at scale 1*", -0.5, 1.0, "-1"),
        ("2,147,483,648 written at scale 1*", 2_147_483_648.0, 1.0, "2147483647"),
        ("2,147,483,904 written at scale 1", 2_147_483_904.0, 1.0, "refused 11, place 0"),
        ("0 written at scale 0", 0.0f32, 0.0, "0"),
    ] {
        cases.push(case(name, said, b'c', floats(value.to_bits(), scale), signed));
    }
    let count = floats(16_777_217, 1.0);
    cases.push(case("count 16,777,217 read at scale 1*", "16777216", b'v', count, float));
    let fraction = 1u32.to_be_bytes().to_vec();
    cases.push(case("nanoseconds of fraction 1", "59", b'n', fraction, unsigned));

    let pdu = pdu_of(vec![frame_asdu(1000f32.to_bits())]);
    let description = described(&frame_header(), &pdu);
    let mut header = frame_header();
    header.length = [0x00, 0x27];
    let read = hex(&described(&header, &pdu));
    cases.push(case("frame written*", &hex(&FRAME), b'e', description.clone(), hex));
    cases.push(case("frame's size", "53", b's', description, unsigned));
    cases.push(case("frame read*", &read, b'f', one_channel(&FRAME), hex));
    cases.push(case("frame is of sampled values", "01", b'i', FRAME.to_vec(), hex));
    cases
}

impl Case {
    fn told(&self) -> String {
        match answer(self.kind, &self.request)[..] {
            [ACCEPTED, ref rest @ ..] => (self.tell)(rest),
            [REFUSED, number, a, b, c, d, e, f, g, h, ..] => {
                let place = u64::from_be_bytes([a, b, c, d, e, f, g, h]);
                format!("refused {number}, place {place}")
            }
            ref other => format!("answer {}", hex(other)),
        }
    }
}

/// Prints every case with both answers; whether all are as said.
pub fn run() -> io::Result<bool> {
    let mut agree = true;
    for case in all() {
        let told = case.told();
        let verdict = if told == case.said { "as said" } else { "differs" };
        agree &= told == case.said;
        println!("{}; {}; {}; {}", case.name, case.said, told, verdict);
    }
    Ok(agree)
}

/// Document 01's count of a value at scale 1, in whole numbers: `None` where 11 refuses.
fn count_of(bits: u32) -> Option<i32> {
    let (exponent, fraction) = ((bits >> 23) & 0xff, bits & 0x7f_ffff);
    if exponent == 0xff && fraction != 0 {
        return Some(0);
    }
    let significand = u64::from(if exponent == 0 { fraction } else { fraction | 0x80_0000 });
    // The magnitude is significand × 2^shift.
    let shift = exponent.max(1) as i32 - 150;
    let magnitude = match shift {
        9.. => return None,
        0.. => significand << shift,
        -25..0 => ((significand << 1 >> -shift) + 1) >> 1,
        _ => 0,
    };
    let negative = bits >> 31 == 1;
    match (negative, magnitude) {
        (false, 0x8000_0000) => Some(i32::MAX),
        (false, 0..0x8000_0000) => Some(magnitude as i32),
        (true, 0..=0x8000_0000) => Some((-(magnitude as i64)) as i32),
        _ => None,
    }
}

/// Holds the original's count of every f32 at scale 1 against document 01's rule. Of the values of
/// magnitude 2^33 and more, all refused alike, one in 4,099 is taken, and the last 60,000 before
/// the infinities.
pub fn counts() -> io::Result<bool> {
    let (mut bits, mut counts, mut refused, mut differ) = (0u32, 0u64, 0u64, 0u64);
    loop {
        let answered = answer(b'c', &floats(bits, 1.0));
        let said = match count_of(bits) {
            Some(count) => [&[ACCEPTED][..], &count.to_be_bytes()].concat(),
            None => [&[REFUSED, 11][..], &[0; 8]].concat(),
        };
        match answered[0] {
            ACCEPTED => counts += 1,
            _ => refused += 1,
        }
        if answered != said {
            differ += 1;
            println!("value {bits:08x}: said {}, answered {}", hex(&said), hex(&answered));
        }
        let large = (0x5000_0000..0x7f7f_0000).contains(&(bits & 0x7fff_ffff));
        let Some(next) = bits.checked_add(if large { 4099 } else { 1 }) else { break };
        bits = next;
    }
    println!("{counts} counts, {refused} refused 11, {differ} differ");
    Ok(differ == 0)
}
