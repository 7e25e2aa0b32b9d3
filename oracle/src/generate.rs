//! Random requests over all kinds and classes of input. The same seed gives the same requests.

use crate::frame::{fix, frame, header_size, length_octets, plain, Element, Field, Piece};
use crate::layout::{asked, bits, described, Asdu, Header, Pdu, Sample};

/// SplitMix64.
pub struct Random(pub u64);

impl Random {
    pub fn draw(&mut self) -> u64 {
        self.0 = self.0.wrapping_add(0x9e37_79b9_7f4a_7c15);
        let mut z = self.0;
        z = (z ^ (z >> 30)).wrapping_mul(0xbf58_476d_1ce4_e5b9);
        z = (z ^ (z >> 27)).wrapping_mul(0x94d0_49bb_1331_11eb);
        z ^ (z >> 31)
    }

    /// From 0 to `end` - 1.
    pub fn below(&mut self, end: usize) -> usize {
        (self.draw() % end as u64) as usize
    }

    /// From `first` to `last`.
    pub fn among(&mut self, first: usize, last: usize) -> usize {
        first + self.below(last - first + 1)
    }

    pub fn percent(&mut self, share: usize) -> bool {
        self.below(100) < share
    }

    pub fn pick<T: Copy>(&mut self, from: &[T]) -> T {
        from[self.below(from.len())]
    }

    fn octets(&mut self, length: usize) -> Vec<u8> {
        (0..length).map(|_| self.draw() as u8).collect()
    }

    fn fixed<const N: usize>(&mut self) -> [u8; N] {
        std::array::from_fn(|_| self.draw() as u8)
    }

    /// A number with a random number of bits, up to `bits`.
    fn bits(&mut self, bits: usize) -> u64 {
        let count = self.among(0, bits);
        if count == 0 {
            0
        } else {
            self.draw() >> (64 - count)
        }
    }

    fn option<T>(&mut self, make: impl FnOnce(&mut Random) -> T) -> Option<T> {
        if self.percent(50) {
            Some(make(self))
        } else {
            None
        }
    }
}

/// A request, and the class of input that it was made for.
pub struct Request {
    pub class: &'static str,
    pub kind: u8,
    pub octets: Vec<u8>,
}

#[rustfmt::skip]
mod boundaries {
    pub const FIRST_LENGTH_OCTETS: [u8; 8] = [0x00, 0x7f, 0x80, 0x81, 0x82, 0x83, 0x84, 0xff];
    pub const U16S: [u16; 9] = [0, 1, 127, 128, 255, 256, 32_767, 32_768, 65_535];
    pub const U32S: [u32; 14] = [
        0, 1, 127, 128, 255, 256, 32_767, 32_768, 65_535, 65_536, 8_388_607, 8_388_608,
        0x7fff_ffff, 0xffff_ffff,
    ];
    pub const LENGTHS: [u64; 22] = [
        0, 1, 126, 127, 128, 129, 254, 255, 256, 257, 65_533, 65_534, 65_535, 65_536, 65_537,
        0xff_fffe, 0xff_ffff, 0x100_0000, 0x100_0001, 1 << 32, 1 << 63, u64::MAX,
    ];
    pub const COUNTS: [i32; 16] = [
        0, 1, -1, 2, 1000, -1000, 8_388_607, 8_388_608, 16_777_215, 16_777_216, 16_777_217,
        16_777_219, -16_777_217, 2_147_483_583, i32::MAX, i32::MIN,
    ];
    /// Values at which rounding or range decides, at scale 1.
    pub const VALUES: [f32; 33] = [
        0.0, -0.0, 0.5, -0.5, 0.499_999_97, -0.499_999_97, 0.500_000_06, 1.5, -1.5, 2.5, -2.5,
        1.0, -1.0, 1000.0, 4_194_303.5, 4_194_304.5, 8_388_607.5, -8_388_607.5, 8_388_608.0,
        8_388_609.0, 16_777_216.0, 2_147_483_520.0, 2_147_483_648.0, 2_147_483_904.0,
        -2_147_483_648.0, -2_147_483_904.0, f32::MIN_POSITIVE, 1e-45, -1e-45, f32::MAX,
        f32::INFINITY, f32::NEG_INFINITY, f32::NAN,
    ];
    pub const SCALES: [f32; 17] = [
        1.0, 0.0001, 0.001, 0.01, 0.1, 2.0, 10.0, -1.0, 0.5, 0.0, -0.0, 1e-45,
        f32::MIN_POSITIVE, 1e30, f32::MAX, f32::INFINITY, f32::NAN,
    ];
}
pub use boundaries::*;

pub fn request(random: &mut Random) -> Request {
    let kind = match random.below(1000) {
        0..=319 => b'f',
        320..=519 => b'p',
        520..=659 => b'e',
        660..=699 => b's',
        700..=729 => b'h',
        730..=749 => b'i',
        750..=789 => b'l',
        790..=819 => b'u',
        820..=859 => b'r',
        860..=894 => b't',
        895..=909 => b'q',
        910..=914 => b'b',
        915..=929 => b'd',
        930..=939 => b'n',
        940..=949 => b'w',
        950..=979 => b'c',
        _ => b'v',
    };
    let (class, octets) = match kind {
        b'f' => read_frame(random),
        b'p' => read_pdu(random),
        b'e' | b's' => description(random),
        b'h' => header_octets(random),
        b'i' => frame_test(random),
        b'l' => ("length writer", write_length(random)),
        b'u' => ("integer writer", write_integer(random)),
        b'r' => ("integer reader", read_integer(random)),
        b't' => ("tag and length reader", read_length(random)),
        b'q' => ("quality", word(random, 50).to_be_bytes().to_vec()),
        b'b' => ("time quality", random.octets(1)),
        b'd' => ("timestamp", random.octets(8)),
        b'n' => ("nanoseconds", (random.bits(32) as u32).to_be_bytes().to_vec()),
        b'w' => ("timestamp writer", time_fields(random)),
        b'c' => ("count of a value", value_and_scale(random)),
        _ => ("value of a count", count_and_scale(random)),
    };
    Request { class, kind, octets }
}

// ---- descriptions ----

fn text(random: &mut Random, most: usize, utf8: bool) -> Vec<u8> {
    let length = match random.below(20) {
        0 => random.among(0, most),
        1 => random.pick(&[126, 127, 128, 129, 130]).min(most),
        _ => random.among(0, 8),
    };
    if !utf8 {
        return random.octets(length);
    }
    let mut out = vec![];
    while out.len() < length {
        let letter = match random.below(12) {
            0 => random.pick(&['é', 'ß', '€', '\u{fffd}', '𝄞', '\0', '\u{7f}']),
            _ => random.pick(b"ABCXYZabc0189_/$. ") as char,
        };
        if out.len() + letter.len_utf8() <= length {
            out.extend(letter.encode_utf8(&mut [0; 4]).as_bytes());
        } else {
            out.push(b'.');
        }
    }
    out
}

fn number16(random: &mut Random) -> u16 {
    if random.percent(40) {
        random.pick(&U16S)
    } else {
        random.bits(16) as u16
    }
}

fn number32(random: &mut Random) -> u32 {
    if random.percent(40) {
        random.pick(&U32S)
    } else {
        random.bits(32) as u32
    }
}

/// A quality word; `wide` percent have any of the 32 bits.
fn word(random: &mut Random, wide: usize) -> u32 {
    if random.percent(wide) {
        random.draw() as u32
    } else {
        random.pick(&[0, 0, 1, 0x800, 0x1fff, 0x555]) & random.draw() as u32
    }
}

fn count(random: &mut Random) -> i32 {
    match random.below(4) {
        0 => random.pick(&COUNTS),
        1 => random.draw() as i32,
        _ => (random.draw() as i32) >> random.below(32),
    }
}

fn scale(random: &mut Random) -> f32 {
    match random.below(20) {
        0 => random.pick(&SCALES),
        1 => f32::from_bits(random.draw() as u32),
        2 => random.among(1, 1000) as f32 / 1000.0,
        _ => random.pick(&SCALES[..7]),
    }
}

fn scales(random: &mut Random, channels: usize) -> Vec<f32> {
    (0..channels).map(|_| scale(random)).collect()
}

fn header(random: &mut Random) -> Header {
    Header {
        destination: random.fixed(),
        source: random.fixed(),
        vlan: u8::from(random.percent(50)),
        tpid: [0x81, 0x00],
        tci: random.fixed(),
        ether_type: [0x88, 0xba],
        appid: random.fixed(),
        length: [0, 0],
    }
    .blank()
}

impl Header {
    /// With the fields that are absent zero.
    fn blank(mut self) -> Header {
        if !matches!(self.vlan, 1 | 2) {
            self.tpid = [0; 2];
        }
        if !matches!(self.vlan, 1 | 3) {
            self.tci = [0; 2];
        }
        self
    }
}

/// What a random PDU is made of.
#[derive(Clone, Copy)]
struct Shape {
    asdus: usize,
    channels: usize,
    text: usize,
    security: usize,
    utf8: bool,
    /// Share in percent of quality words with bits above 12.
    wide: usize,
}

fn shape(random: &mut Random) -> Shape {
    let small = random.percent(75);
    Shape {
        asdus: if small { random.among(1, 2) } else { random.among(0, 9) },
        channels: if random.percent(80) { random.among(0, 3) } else { random.among(0, 25) },
        text: 130,
        security: 66,
        utf8: true,
        wide: 20,
    }
}

fn pdu(random: &mut Random, shape: Shape) -> Pdu {
    let asdus: Vec<Asdu> = (0..shape.asdus).map(|_| asdu(random, shape)).collect();
    let most = if random.percent(70) { 4 } else { shape.security };
    Pdu {
        simulation: random.percent(50),
        no_asdu: asdus.len() as u16,
        security: if random.percent(40) {
            let length = random.among(0, most);
            Some(random.octets(length))
        } else {
            None
        },
        asdus,
    }
}

fn asdu(random: &mut Random, shape: Shape) -> Asdu {
    Asdu {
        sv_id: text(random, shape.text, shape.utf8),
        dat_set: random.option(|random| text(random, shape.text, shape.utf8)),
        smp_cnt: number16(random),
        conf_rev: number32(random),
        refr_tm: random.option(Random::fixed),
        smp_synch: random.pick(&[0, 1, 2, 3, 127, 128, 255]),
        smp_rate: random.option(number16),
        smp_mod: random.option(number16),
        gm_identity: random.option(Random::fixed),
        samples: (0..shape.channels)
            .map(|_| Sample {
                value: count(random) as u32,
                scale: 0,
                quality: word(random, shape.wide),
            })
            .collect(),
    }
}

// ---- reading ----

/// Contents for an integer field: 0 to 6 octets, with what matters in front.
fn odd_integer(random: &mut Random) -> Vec<u8> {
    let length = random.among(0, 6);
    let mut content = random.octets(length);
    let front = random.pick::<&[u8]>(&[
        &[],
        &[0x00],
        &[0xff],
        &[0x80],
        &[0x7f],
        &[0x00, 0x80],
        &[0x00, 0x7f],
        &[0xff, 0xff],
        &[0xff, 0x80],
        &[0x00, 0x00],
    ]);
    let common = front.len().min(length);
    content[..common].copy_from_slice(&front[..common]);
    content
}

/// The classes of frames; one that stands twice is made twice as often.
const CLASSES: [&str; 20] = [
    "good",
    "good",
    "text of any octets",
    "other noASDU",
    "odd integers",
    "longer length forms",
    "odd lengths",
    "other tags",
    "cut",
    "cut",
    "length octet replaced",
    "length octet replaced",
    "octets inserted",
    "octets deleted",
    "bits flipped",
    "bits flipped",
    "bits flipped, then cut",
    "octets after the end",
    "other channel number",
    "any octets",
];

/// A frame, its channel number, and where its PDU starts.
struct Made {
    class: &'static str,
    octets: Vec<u8>,
    channels: usize,
    start: usize,
}

fn made(random: &mut Random) -> Made {
    let class = random.pick(&CLASSES);
    let mut shape = shape(random);
    shape.utf8 = class != "text of any octets";
    let header = header(random);
    let mut pdu = pdu(random, shape);
    if class == "other noASDU" {
        pdu.no_asdu = random.pick(&[0, 1, 2, 3, 8, 9, 128, 255, 256, 32_768, 65_535]);
    }
    let fixed = random.percent(40);
    let mut piece = frame(&header, &pdu, &mut |element| {
        if fixed {
            fix(element);
        }
        alter(class, random, element);
    });
    damage(class, random, &mut piece);
    let channels = match class {
        "other channel number" => random.among(0, 26),
        _ => shape.channels,
    };
    Made { class, octets: piece.octets, channels, start: header_size(&header) }
}

fn is_integer(field: Field) -> bool {
    use Field::*;
    matches!(field, NoAsdu | SmpCnt | ConfRev | SmpSynch | SmpRate | SmpMod)
}

/// What a class does to an element before it is written.
fn alter(class: &str, random: &mut Random, element: &mut Element) {
    use Field::*;
    match (class, element.field) {
        ("odd integers", field) if is_integer(field) => {
            let share = if field == NoAsdu { 10 } else { 35 };
            if random.percent(share) {
                element.content = odd_integer(random).into();
            }
        }
        ("longer length forms", _) if random.percent(40) => element.form = random.among(1, 3),
        ("odd lengths", RefrTm | Samples | Pdu | Sequence | Asdu) if random.percent(40) => {
            element.stated = Some(random.bits(17) as usize);
        }
        ("odd lengths", GmIdentity) => {
            let length = random.among(0, 12);
            element.content = random.octets(length).into();
        }
        ("other tags", _) if random.percent(15) => {
            element.tag = match random.below(2) {
                0 => random.among(0x80, 0x8a) as u8,
                _ => random.draw() as u8,
            };
        }
        _ => (),
    }
}

/// What a class does to the frame once it is written.
fn damage(class: &str, random: &mut Random, piece: &mut Piece) {
    let octets = &mut piece.octets;
    match class {
        "cut" => {
            let length = random.among(0, octets.len());
            octets.truncate(length);
        }
        "length octet replaced" => {
            octets[random.pick(&piece.lengths)] = random.pick(&FIRST_LENGTH_OCTETS);
        }
        "octets inserted" => {
            for _ in 0..random.among(1, 3) {
                let place = random.among(0, octets.len());
                octets.insert(place, random.pick(&[0, 0x80, 0x81, 0x84, 0x86, 0x88, 0x89, 0xff]));
            }
        }
        "octets deleted" => {
            for _ in 0..random.among(1, 3) {
                octets.remove(random.below(octets.len()));
            }
        }
        "bits flipped" | "bits flipped, then cut" => {
            for _ in 0..random.among(1, 4) {
                let place = random.below(octets.len());
                octets[place] ^= 1 << random.below(8);
            }
            if class != "bits flipped" {
                let length = random.among(0, octets.len());
                octets.truncate(length);
            }
        }
        "octets after the end" => {
            let length = random.among(1, 12);
            let mut after = random.octets(length);
            if random.percent(70) {
                after[0] = random.pick(&[0x88, 0x89]);
            }
            if length > 1 && random.percent(70) {
                after[1] = random.among(0, 9) as u8;
            }
            octets.extend(after);
        }
        "any octets" => {
            let length = random.among(0, 80);
            *octets = random.octets(length);
        }
        _ => (),
    }
}

fn read_frame(random: &mut Random) -> (&'static str, Vec<u8>) {
    let made = made(random);
    (made.class, asked(&scales(random, made.channels), &made.octets))
}

fn read_pdu(random: &mut Random) -> (&'static str, Vec<u8>) {
    let mut made = made(random);
    let length = made.octets.len();
    let mut start = made.start as u64;
    match random.below(10) {
        0..=2 => (),
        3..=5 => {
            made.octets.drain(..made.start.min(length));
            start = 0;
        }
        6 => {
            let before = random.among(0, 40);
            let mut octets = random.octets(before);
            if before >= 14 && random.percent(50) {
                octets[12..14].copy_from_slice(&[0x81, 0x00]);
            }
            octets.extend(made.octets.drain(made.start.min(length)..));
            made.octets = octets;
            start = before as u64;
        }
        7 => {
            made.class = "start inside";
            start = random.among(0, length) as u64;
        }
        8 => {
            made.class = "start at or past the end";
            start = (length + random.among(0, 9)) as u64;
        }
        _ => {
            made.class = "start near 2^64";
            start = u64::MAX - random.below(12) as u64;
        }
    }
    let mut out = start.to_be_bytes().to_vec();
    out.extend(asked(&scales(random, made.channels), &made.octets));
    (made.class, out)
}

fn header_octets(random: &mut Random) -> (&'static str, Vec<u8>) {
    let length = random.among(0, 30);
    let mut octets = random.octets(length);
    if length >= 14 && random.percent(60) {
        octets[12..14].copy_from_slice(&[0x81, 0x00]);
    }
    ("header", octets)
}

fn frame_test(random: &mut Random) -> (&'static str, Vec<u8>) {
    let (_, mut octets) = header_octets(random);
    let place = if random.percent(50) { 12 } else { 16 };
    if octets.len() >= place + 2 && random.percent(80) {
        octets[place..place + 2].copy_from_slice(&[0x88, 0xba]);
    }
    ("frame test", octets)
}

// ---- writing ----

fn value(random: &mut Random, scale: f32) -> f32 {
    match random.below(10) {
        0 => random.pick(&VALUES),
        1 => random.pick(&VALUES) * scale,
        2 => (count(random) as f32 + 0.5) * scale,
        _ => count(random) as f32 * scale,
    }
}

/// Values and scale factors for every sample; of those out of range `share` percent are kept.
fn give_values(random: &mut Random, pdu: &mut Pdu, share: usize) {
    let channels = pdu.asdus.first().map_or(0, |asdu| asdu.samples.len());
    let scales = scales(random, channels);
    for asdu in &mut pdu.asdus {
        for (sample, &scale) in asdu.samples.iter_mut().zip(&scales) {
            let mut value = value(random, scale);
            if (value / scale).abs() > 2_147_483_648.0 && !random.percent(share) {
                value = scale;
            }
            sample.value = bits(value);
            sample.scale = scale.to_bits();
        }
    }
}

fn description(random: &mut Random) -> (&'static str, Vec<u8>) {
    let header = header(random);
    let mut shape = shape(random);
    shape.wide = 0;
    if random.percent(25) {
        return outside(random, header, shape);
    }
    shape.asdus = shape.asdus.clamp(1, 8);
    shape.channels = shape.channels.min(24);
    shape.text = 127;
    shape.security = 64;
    let mut made = pdu(random, shape);
    while plain(&header, &made).octets.len() - header_size(&header) > 1492 {
        shape.channels /= 2;
        made = pdu(random, shape);
    }
    give_values(random, &mut made, 5);
    ("description", described(&header, &made))
}

/// Descriptions outside of document 01's domain.
fn outside(random: &mut Random, mut header: Header, mut shape: Shape) -> (&'static str, Vec<u8>) {
    let class = random.pick(&[
        "0 or above 8 ASDUs",
        "long text",
        "long security",
        "other EtherType or TPID",
        "half a VLAN tag",
        "other noASDU, written",
        "wide quality word",
        "long PDU or 25 channels",
        "values out of range",
    ]);
    match class {
        "0 or above 8 ASDUs" => {
            shape.asdus = random.pick(&[0, 9, 10]);
            shape.channels = shape.channels.min(3);
        }
        "wide quality word" => shape.wide = 100,
        "long PDU or 25 channels" => {
            shape.asdus = random.among(7, 9);
            shape.channels = random.among(23, 25);
        }
        _ => (),
    }
    let mut made = pdu(random, shape);
    match class {
        "long text" => {
            for asdu in &mut made.asdus {
                let long = vec![b'A'; random.pick(&[128, 129, 130, 255, 256, 300])];
                if random.percent(50) {
                    asdu.dat_set = Some(long.clone());
                }
                if random.percent(50) {
                    asdu.sv_id = long;
                }
            }
        }
        "long security" => {
            let length = random.pick(&[65, 66, 127, 128, 255, 256, 300]);
            made.security = Some(random.octets(length));
        }
        "other EtherType or TPID" => {
            if random.percent(50) {
                header.ether_type = random.fixed();
            } else {
                header.vlan = 1;
                header.tpid = random.pick(&[[0x88, 0xa8], [0x88, 0xba], [0x81, 0x01]]);
            }
        }
        "half a VLAN tag" => {
            header.vlan = random.pick(&[2, 3]);
            header.tpid = [0x81, 0x00];
            header.tci = random.fixed();
            header = header.blank();
        }
        "other noASDU, written" => made.no_asdu = number16(random),
        _ => (),
    }
    let share = match class {
        "values out of range" => 100,
        "long PDU or 25 channels" => 0,
        _ => 5,
    };
    give_values(random, &mut made, share);
    (class, described(&header, &made))
}

// ---- the parts ----

fn place(random: &mut Random, length: usize) -> u64 {
    match random.below(10) {
        0 => u64::MAX - random.below(10) as u64,
        1 => random.bits(64),
        _ => random.among(0, length + 2) as u64,
    }
}

fn write_length(random: &mut Random) -> Vec<u8> {
    let value = if random.percent(60) { random.pick(&LENGTHS) } else { random.bits(64) };
    let length = random.among(0, 16);
    let index = if random.percent(60) {
        random.below(length.max(5) - 4) as u64
    } else {
        place(random, length)
    };
    let mut out = random.octets(1);
    out.extend(value.to_be_bytes());
    out.extend((length as u32).to_be_bytes());
    out.extend(index.to_be_bytes());
    out
}

fn write_integer(random: &mut Random) -> Vec<u8> {
    let width = random.pick(&[1u8, 2, 4]);
    let value = u64::from(number32(random)) & ((1u64 << (8 * width)) - 1);
    let mut out = vec![random.draw() as u8, width];
    out.extend((value as u32).to_be_bytes());
    out
}

fn read_integer(random: &mut Random) -> Vec<u8> {
    let content = odd_integer(random);
    let before = random.among(0, 3);
    let mut octets = random.octets(before);
    octets.extend(&content);
    let (mut index, mut length) = (before as u64, content.len() as u64);
    match random.below(10) {
        0 => index = place(random, octets.len()),
        1 => length = place(random, octets.len()),
        2..=4 => {
            let after = random.among(1, 3);
            octets.extend(random.octets(after));
        }
        _ => (),
    }
    let mut out = vec![random.pick(&[1, 2, 4])];
    out.extend(index.to_be_bytes());
    out.extend(length.to_be_bytes());
    out.extend(octets);
    out
}

fn read_length(random: &mut Random) -> Vec<u8> {
    let before = random.among(0, 3);
    let mut octets = random.octets(before + 1);
    match random.below(3) {
        0 => octets.extend(length_octets(random.bits(24) as usize, random.below(4))),
        1 => {
            octets.push(random.pick(&FIRST_LENGTH_OCTETS));
            let after = random.among(0, 4);
            octets.extend(random.octets(after));
        }
        _ => {
            let after = random.among(0, 5);
            octets.extend(random.octets(after));
        }
    }
    if random.percent(20) {
        let length = random.among(0, octets.len());
        octets.truncate(length);
    }
    let index = if random.percent(80) { before as u64 } else { place(random, octets.len()) };
    let mut out = index.to_be_bytes().to_vec();
    out.extend(octets);
    out
}

fn time_fields(random: &mut Random) -> Vec<u8> {
    let mut out = random.octets(4);
    out.extend((random.bits(32) as u32).to_be_bytes());
    for _ in 0..3 {
        out.push(random.below(2) as u8);
    }
    let accuracies = [0, 24, 25, 26, 30, 31, 32, 63, 255, random.draw() as u8];
    out.push(random.pick(&accuracies));
    out
}

fn value_and_scale(random: &mut Random) -> Vec<u8> {
    let scale = scale(random);
    let value = match random.below(4) {
        0 => f32::from_bits(random.draw() as u32),
        _ => value(random, scale),
    };
    [bits(value), scale.to_bits()].map(u32::to_be_bytes).concat()
}

fn count_and_scale(random: &mut Random) -> Vec<u8> {
    [count(random) as u32, scale(random).to_bits()].map(u32::to_be_bytes).concat()
}
