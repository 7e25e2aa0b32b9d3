//! The requests of the recorded list: every kind, and for reading and writing every rule of
//! document 01 by frames as small as can be.

use crate::cases::{
    self, floats, frame_asdu, frame_header, one_channel, pdu_of, read_u16, write_u16, FRAME,
};
use crate::frame::{self, fixed, frame, header_size, plain, Element, Field};
use crate::generate::{
    self, Random, COUNTS, FIRST_LENGTH_OCTETS, LENGTHS, SCALES, U16S, U32S, VALUES,
};
use crate::layout::{asked, described, Asdu, Header, Pdu, Sample};
use std::collections::HashSet;

/// Requests in order, each once.
#[derive(Default)]
struct List {
    requests: Vec<(u8, Vec<u8>)>,
    seen: HashSet<(u8, Vec<u8>)>,
}

impl List {
    fn add(&mut self, kind: u8, octets: Vec<u8>) {
        if self.seen.insert((kind, octets.clone())) {
            self.requests.push((kind, octets));
        }
    }

    /// A frame to read with one channel.
    fn frame(&mut self, octets: &[u8]) {
        self.add(b'f', one_channel(octets));
    }

    /// The same PDU to be read in its frame, and the description to be written and measured.
    fn both(&mut self, header: &Header, pdu: &Pdu) {
        let channels = pdu.asdus.first().map_or(0, |asdu| asdu.samples.len());
        let octets = plain(header, pdu).octets;
        self.add(b'f', asked(&vec![1.0; channels], &octets));
        let request = described(header, &with_values(pdu));
        self.add(b'e', request.clone());
        self.add(b's', request);
    }
}

pub fn requests() -> Vec<(u8, Vec<u8>)> {
    let mut list = List::default();
    for case in cases::all() {
        list.add(case.kind, case.request);
    }
    parts(&mut list);
    types(&mut list);
    scaling(&mut list);
    headers(&mut list);
    cuts(&mut list);
    lengths(&mut list);
    integers(&mut list);
    optional_fields(&mut list);
    sizes(&mut list);
    texts(&mut list);
    ends(&mut list);
    starts(&mut list);
    fixed_form(&mut list);
    writing(&mut list);
    random(&mut list);
    list.requests
}

fn started(start: u64, octets: &[u8]) -> Vec<u8> {
    [&start.to_be_bytes()[..], &one_channel(octets)].concat()
}

/// With each count as a value at its own scale factor.
fn with_values(pdu: &Pdu) -> Pdu {
    let mut pdu = pdu.clone();
    for sample in pdu.asdus.iter_mut().flat_map(|asdu| &mut asdu.samples) {
        let scale = f32::from_bits(sample.scale);
        sample.value = (sample.value as i32 as f32 * scale).to_bits();
    }
    pdu
}

fn tagged() -> Header {
    Header { vlan: 1, tpid: [0x81, 0x00], tci: [0x60, 0x05], ..frame_header() }
}

fn one_asdu() -> Asdu {
    frame_asdu(1000)
}

/// An ASDU with every optional field.
fn full_asdu() -> Asdu {
    Asdu {
        dat_set: Some(b"DS".to_vec()),
        refr_tm: Some([0x66, 0x1f, 0x2e, 0x3d, 0x80, 0x00, 0x01, 0x2a]),
        smp_rate: Some(4000),
        smp_mod: Some(1),
        gm_identity: Some([0, 1, 2, 0xff, 0xfe, 5, 6, 7]),
        ..one_asdu()
    }
}

fn full_pdu() -> Pdu {
    Pdu { simulation: true, security: Some(vec![0xab]), ..pdu_of(vec![full_asdu()]) }
}

/// The full PDU's frame with one field altered.
fn altered(field: Field, alter: impl Fn(&mut Element)) -> Vec<u8> {
    let alter = &mut |element: &mut Element| {
        if element.field == field {
            alter(element);
        }
    };
    frame(&frame_header(), &full_pdu(), alter).octets
}

/// A short PDU's frame with one field, added where it is optional, of that content.
fn with_content(field: Field, content: &[u8]) -> Vec<u8> {
    let mut asdu = one_asdu();
    match field {
        Field::SmpRate => asdu.smp_rate = Some(0),
        Field::SmpMod => asdu.smp_mod = Some(0),
        Field::GmIdentity => asdu.gm_identity = Some([0; 8]),
        Field::DatSet => asdu.dat_set = Some(vec![]),
        _ => (),
    }
    let alter = &mut |element: &mut Element| {
        if element.field == field {
            element.content = content.to_vec().into();
        }
    };
    frame(&frame_header(), &pdu_of(vec![asdu]), alter).octets
}

// ---- tags, lengths and integers by themselves ----

fn parts(list: &mut List) {
    for value in LENGTHS {
        for (length, index) in
            [(0, 0), (1, 0), (2, 0), (3, 0), (4, 0), (5, 0), (7, 0), (5, 1), (7, 1)]
        {
            list.add(b'l', write_length(value, length, index));
        }
    }
    for index in [2, 3, 7, 8, 1 << 32, u64::MAX - 2, u64::MAX - 1, u64::MAX] {
        list.add(b'l', write_length(1, 4, index));
    }
    for value in U32S {
        list.add(b'u', [&[0x83, 4][..], &value.to_be_bytes()].concat());
    }
    for value in U16S {
        list.add(b'u', write_u16(value));
    }
    for value in [0, 1, 127, 128, 255] {
        list.add(b'u', vec![0x85, 1, 0, 0, 0, value]);
    }
    for width in [1u8, 2, 4] {
        for length in 0..=6usize {
            for front in [[0x00, 0x7f], [0x00, 0x80], [0x80, 0x00], [0xff, 0xff]] {
                let content = [&front[..], &[0x12, 0x34, 0x56, 0x78]].concat();
                list.add(b'r', read_integer(width, 0, length as u64, &content[..length]));
            }
        }
        for (index, length, octets) in [
            (0, 0, &[0x7f][..]),
            (0, 0, &[0x80]),
            (1, 0, &[0x80]),
            (1, 1, &[0x80]),
            (1, 2, &[0x80, 0x81, 0x82, 0x83]),
            (2, 0, &[0x80]),
            (u64::MAX, 0, &[0x80]),
            (u64::MAX, 1, &[0x80]),
            (1, u64::MAX, &[0x80]),
        ] {
            list.add(b'r', read_integer(width, index, length, octets));
        }
    }
    for first in FIRST_LENGTH_OCTETS {
        for after in 0..=4 {
            let octets = [&[0x30, first][..], &[0x00, 0x80, 0xff, 0x7f][..after]].concat();
            list.add(b't', [&[0; 8][..], &octets].concat());
        }
    }
    for index in [0, 1, 2, 3, 4, u64::MAX - 1, u64::MAX] {
        list.add(b't', [&index.to_be_bytes()[..], &[0x80, 0x81, 0x05]].concat());
        list.add(b't', index.to_be_bytes().to_vec());
    }
}

fn write_length(value: u64, length: u32, index: u64) -> Vec<u8> {
    let (value, length) = (value.to_be_bytes(), length.to_be_bytes());
    [&[0x30][..], &value, &length, &index.to_be_bytes()].concat()
}

fn read_integer(width: u8, index: u64, length: u64, octets: &[u8]) -> Vec<u8> {
    [&[width][..], &index.to_be_bytes(), &length.to_be_bytes(), octets].concat()
}

// ---- quality and time ----

fn types(list: &mut List) {
    let mut add = |word: u32| list.add(b'q', word.to_be_bytes().to_vec());
    (0..4).for_each(&mut add);
    (2..32).for_each(|bit| add(1 << bit));
    [0x1fff, 0x2000, 0x1555, 0xaaa, 0xffff_e000, u32::MAX].into_iter().for_each(&mut add);
    for byte in (0..=32).chain([0x3f, 0x40, 0x5a, 0x80, 0x99, 0xa0, 0xc0, 0xe0, 0xff]) {
        list.add(b'b', vec![byte]);
    }
    for fraction in [
        0,
        1,
        2,
        16,
        17,
        0x7f_ffff,
        0x80_0000,
        0x80_0001,
        0xff_fffe,
        0xff_ffff,
        0x100_0000,
        0x100_0001,
        0x200_0000,
        0x44b_82f9,
        0x44b_82fa,
        0x7fff_ffff,
        0x8000_0000,
        0xffff_ffff,
    ] {
        let fraction = u32::to_be_bytes(fraction);
        list.add(b'n', fraction.to_vec());
        let time = [&[0x66, 0x1f, 0x2e, 0x3d][..], &fraction[1..], &[fraction[3]]].concat();
        list.add(b'd', time);
        for (flags, accuracy) in
            [([0, 0, 1], 10), ([0, 1, 0], 25), ([1, 0, 0], 26), ([1, 1, 1], 31)]
        {
            let time = [&[0x66, 0x1f, 0x2e, 0x3d][..], &fraction, &flags, &[accuracy]].concat();
            list.add(b'w', time);
        }
    }
    for accuracy in [0, 24, 30, 32, 57, 63, 64, 128, 255] {
        list.add(b'w', vec![0xff, 0xff, 0xff, 0xff, 0, 0, 0, 1, 0, 0, 0, accuracy]);
    }
    list.add(b'd', vec![0; 8]);
    list.add(b'd', vec![0xff; 8]);
}

// ---- values and counts ----

fn scaling(list: &mut List) {
    list.add(b'k', vec![]);
    for value in VALUES {
        list.add(b'c', floats(value.to_bits(), 1.0));
    }
    for value in [0.0f32, -0.0, 1.0, 0.05, -123.45, 214_748.36, 214_748.38, f32::INFINITY, f32::NAN]
    {
        for scale in SCALES {
            list.add(b'c', floats(value.to_bits(), scale));
        }
    }
    for count in COUNTS {
        for scale in [1.0, 0.0001, 0.01, 3.0] {
            list.add(b'v', floats(count as u32, scale));
        }
    }
    for scale in SCALES {
        for count in [0u32, 1, 16_777_219] {
            list.add(b'v', floats(count, scale));
        }
    }
}

// ---- headers, and frames cut at every length ----

fn headers(list: &mut List) {
    for header in [frame_header(), tagged()] {
        let octets = plain(&header, &pdu_of(vec![])).octets;
        for length in 0..=header_size(&header) + 1 {
            list.add(b'h', octets[..length].to_vec());
        }
        for length in (0..=18).chain([19, 22]) {
            list.add(b'i', octets[..length].to_vec());
        }
    }
    for (place, octets) in [
        (12, [0x88, 0xb8]),
        (12, [0x88, 0xbb]),
        (12, [0x81, 0x01]),
        (12, [0x80, 0x00]),
        (16, [0x88, 0xa8]),
        (16, [0x81, 0x00]),
    ] {
        let mut frame = plain(&tagged(), &pdu_of(vec![])).octets;
        frame[place..place + 2].copy_from_slice(&octets);
        for kind in *b"hi" {
            list.add(kind, frame[..26].to_vec());
        }
        list.frame(&frame);
    }
}

fn cuts(list: &mut List) {
    for length in 0..=FRAME.len() {
        list.frame(&FRAME[..length]);
    }
    let whole = plain(&tagged(), &full_pdu()).octets;
    for length in 0..=whole.len() {
        list.frame(&whole[..length]);
    }
    // A second ASDU after a short first one, without samples.
    let bare = Asdu { samples: vec![], ..one_asdu() };
    let two = plain(&frame_header(), &pdu_of(vec![bare.clone(), bare])).octets;
    for length in 46..=two.len() {
        list.add(b'f', asked(&[], &two[..length]));
    }
}

// ---- lengths, integers, optional fields ----

fn lengths(list: &mut List) {
    let whole = plain(&frame_header(), &full_pdu());
    for place in &whole.lengths {
        for first in FIRST_LENGTH_OCTETS {
            let mut octets = whole.octets.clone();
            octets[*place] = first;
            list.frame(&octets);
        }
    }
    let short = plain(&frame_header(), &pdu_of(vec![one_asdu()]));
    for place in 0..short.lengths.len() {
        for form in 1..=3 {
            let mut nth = 0;
            let alter = &mut |element: &mut Element| {
                if nth == place {
                    element.form = form;
                }
                nth += 1;
            };
            list.frame(&frame(&frame_header(), &pdu_of(vec![one_asdu()]), alter).octets);
        }
    }
    for field in [Field::RefrTm, Field::Samples, Field::Asdu, Field::Sequence, Field::Pdu] {
        for length in [0, 7, 9, 65_535] {
            list.frame(&altered(field, |element| element.stated = Some(length)));
        }
    }
    for length in 0..=10 {
        list.frame(&with_content(Field::GmIdentity, &[1, 2, 3, 4, 5, 6, 7, 8, 9, 10][..length]));
    }
    for place in &whole.tags {
        for tag in [0x00, 0x81, 0x84, 0x86, 0x88, 0x89] {
            let mut octets = whole.octets.clone();
            octets[*place] = tag;
            if tag == 0 || place % 3 == 0 {
                list.frame(&octets);
            }
        }
    }
}

fn integers(list: &mut List) {
    let contents: &[&[u8]] = &[
        &[],
        &[0x00],
        &[0x7f],
        &[0x80],
        &[0xff],
        &[0x00, 0x7f],
        &[0x00, 0x80],
        &[0x80, 0x01],
        &[0xff, 0x80],
        &[0x00, 0x7f, 0xff],
        &[0x00, 0x80, 0x00],
        &[0xff, 0x80, 0x00],
        &[0x00, 0x7f, 0xff, 0xff, 0xff],
        &[0x00, 0x80, 0x00, 0x00, 0x00],
        &[0xff, 0x80, 0x00, 0x00, 0x00],
        &[0x00, 0x00, 0x80, 0x00, 0x00, 0x00],
    ];
    use Field::*;
    for field in [SmpCnt, ConfRev, SmpSynch, SmpRate, SmpMod] {
        for content in contents {
            list.frame(&with_content(field, content));
        }
    }
    let numbers: &[&[u8]] =
        &[&[], &[0], &[2], &[9], &[0x80], &[0, 1], &[1, 0], &[0, 1, 0], &[0, 0xff, 0xff]];
    for content in numbers {
        list.frame(&with_content(NoAsdu, content));
    }
    // A length of 0 where the next octet stands at the buffer's end, and past it.
    for end in [&[0x88, 0x00][..], &[0x88, 0x00, 0x80], &[0x88, 0x00, 0x7f], &[0x89, 0x00]] {
        list.frame(&[&FRAME[..], end].concat());
    }
    list.frame(&[&FRAME[..22], &[0x60, 0x02, 0x80, 0x00]].concat());
    for content in [&[0x80][..], &[0xff, 0xff], &[0x00], &[0x12, 0x34], &[0x00, 0x80, 0x00]] {
        list.add(b'r', read_u16(content));
    }
}

/// The full ASDU with only the optional fields whose bit is set.
fn some_fields(mask: u32) -> Pdu {
    let full = full_asdu();
    let has = |bit: u32| mask >> bit & 1 == 1;
    Pdu {
        simulation: mask % 3 == 1,
        security: has(5).then(|| vec![0xab, 0xcd]),
        ..pdu_of(vec![Asdu {
            dat_set: full.dat_set.filter(|_| has(0)),
            refr_tm: full.refr_tm.filter(|_| has(1)),
            smp_rate: full.smp_rate.filter(|_| has(2)),
            smp_mod: full.smp_mod.filter(|_| has(3)),
            gm_identity: full.gm_identity.filter(|_| has(4)),
            ..one_asdu()
        }])
    }
}

fn optional_fields(list: &mut List) {
    for mask in 0..64 {
        let header = if mask % 2 == 0 { frame_header() } else { tagged() };
        let pdu = some_fields(mask);
        let octets = plain(&header, &pdu).octets;
        list.frame(&octets);
        let request = described(&header, &with_values(&pdu));
        list.add(b'e', request.clone());
        if mask % 8 == 0 {
            list.add(b's', request);
        }
    }
}

// ---- numbers of ASDUs and channels, texts ----

fn sizes(list: &mut List) {
    for channels in 0..=25u32 {
        let samples = (0..channels)
            .map(|k| Sample {
                value: k.wrapping_mul(0x1111_1111),
                scale: 0.5f32.to_bits(),
                quality: k * 301 % 0x2000,
            })
            .collect();
        let pdu = pdu_of(vec![Asdu { samples, ..one_asdu() }]);
        let octets = plain(&frame_header(), &pdu).octets;
        list.add(b'f', asked(&vec![0.5; channels as usize], &octets));
        let request = described(&frame_header(), &with_values(&pdu));
        if [0, 1, 2, 8, 16, 24, 25].contains(&channels) {
            list.add(b'e', request);
        }
    }
    for number in 0..=9u16 {
        let asdus: Vec<Asdu> = (0..number)
            .map(|k| Asdu { smp_cnt: 126 + k, samples: vec![], sv_id: vec![], ..one_asdu() })
            .collect();
        list.both(&frame_header(), &pdu_of(asdus));
    }
    // Two ASDUs of two channels; the asked number of channels other than the frame's.
    let samples = vec![
        Sample { value: u32::MAX, scale: 0.0001f32.to_bits(), quality: 0x1fff },
        Sample { value: 12_345_678, scale: 0.01f32.to_bits(), quality: 0xffff_e801 },
    ];
    let first = Asdu { samples, ..one_asdu() };
    let second = Asdu { smp_cnt: 6, smp_mod: Some(2), ..first.clone() };
    let octets = plain(&tagged(), &pdu_of(vec![first, second])).octets;
    for channels in 0..=5 {
        list.add(b'f', asked(&[0.0001, 0.01, 1.0, f32::INFINITY, -0.0][..channels], &octets));
    }
    let le_92 = [0.0001, 0.0001, 0.0001, 0.0001, 0.01, 0.01, 0.01, 0.01];
    let samples = (0..8).map(|k| Sample { value: 1000 * k, ..Sample::default() }).collect();
    let pdu = pdu_of(vec![Asdu { samples, ..one_asdu() }]);
    list.add(b'f', asked(&le_92, &plain(&frame_header(), &pdu).octets));
    list.both(&tagged(), &eight_by_eight());
}

/// Eight ASDUs of eight channels with every optional field.
fn eight_by_eight() -> Pdu {
    let asdus = (0..8u16).map(|number| Asdu {
        sv_id: format!("MU{number}").into_bytes(),
        smp_cnt: 3996 + number,
        samples: (0..8u32)
            .map(|channel| Sample {
                value: (u32::from(number) * 8 + channel).wrapping_mul(12_345).wrapping_sub(300_000),
                scale: 1.0f32.to_bits(),
                quality: channel * 1023,
            })
            .collect(),
        ..full_asdu()
    });
    let security = Some(vec![0x5e; 16]);
    Pdu { simulation: true, security, ..pdu_of(asdus.collect()) }
}

fn texts(list: &mut List) {
    let bare = Asdu { samples: vec![], sv_id: vec![], ..one_asdu() };
    for length in [0, 127, 128, 130] {
        let long = vec![b'x'; length];
        list.both(&frame_header(), &pdu_of(vec![Asdu { sv_id: long.clone(), ..bare.clone() }]));
        list.both(&frame_header(), &pdu_of(vec![Asdu { dat_set: Some(long), ..bare.clone() }]));
    }
    for length in [0, 1, 64, 65, 127, 128] {
        let security = Some(vec![0xa5; length]);
        list.both(&frame_header(), &Pdu { security, ..pdu_of(vec![bare.clone()]) });
    }
    let octets: &[&[u8]] = &[
        "é€𝄞".as_bytes(),
        &[0xff],
        &[0x80, 0x41],
        &[0xc3],
        &[0xc3, 0x28],
        &[0xc0, 0x80],
        &[0xe2, 0x82],
        &[0xe2, 0x82, 0xac, 0xe2, 0x82],
        &[0xed, 0xa0, 0x80],
        &[0xef, 0xbf, 0xbd],
        &[0xf0, 0x9d, 0x84],
        &[0xf4, 0x90, 0x80, 0x80],
        &[0xf0, 0x80, 0x80, 0x80],
        &[0x41, 0x00, 0x7f, 0xc2, 0x80],
    ];
    for text in octets {
        list.frame(&with_content(Field::SvId, text));
        if text.len() < 4 {
            list.frame(&with_content(Field::DatSet, text));
        }
    }
}

// ---- octets after the end, starts ----

fn ends(list: &mut List) {
    let ends: &[&[u8]] = &[
        &[0x00],
        &[0x88],
        &[0x89],
        &[0x88, 0x01],
        &[0x88, 0x01, 0x80],
        &[0x88, 0x03, 0x00, 0x80, 0x00],
        &[0x88, 0x80],
        &[0x89, 0x08],
        &[0x89, 0x03, 0x01, 0x02, 0x03],
        &[0x89, 0x08, 1, 2, 3, 4, 5, 6, 7],
        &[0x89, 0x08, 1, 2, 3, 4, 5, 6, 7, 8],
        &[0x89, 0x09, 1, 2, 3, 4, 5, 6, 7, 8],
        &[0x89, 0x09, 1, 2, 3, 4, 5, 6, 7, 8, 9],
        &[0x89, 0x84],
        &[0x88, 0x01, 0x05, 0x89, 0x01, 0x06],
        &[0x89, 0x01, 0x06, 0x88, 0x01, 0x05],
        &[0x00, 0x88, 0x01, 0x05],
        &[0, 0, 0, 0, 0, 0, 0],
    ];
    for end in ends {
        list.frame(&[&FRAME[..], end].concat());
    }
    // What frame reading doesn't use: other reserved bits and Length.
    for (place, octet) in [(16, 0xff), (17, 0x00), (18, 0x80), (18, 0x7f), (19, 0x80), (21, 0xff)] {
        let mut octets = FRAME;
        octets[place] = octet;
        list.frame(&octets);
    }
}

fn starts(list: &mut List) {
    for start in (0..=55).chain([1 << 16, 1 << 32, u64::MAX - 9, u64::MAX - 1, u64::MAX]) {
        list.add(b'p', started(start, &FRAME));
    }
    let body = &FRAME[22..];
    for length in 0..=body.len() {
        list.add(b'p', started(0, &body[..length]));
    }
    // The simulation mark, found from the buffer's start.
    for vlan in [[0x00, 0x00], [0x81, 0x00]] {
        for place in [18, 22] {
            for before in [place, place + 1] {
                let mut octets = vec![0; before];
                octets[12..14].copy_from_slice(&vlan);
                octets.extend(body);
                octets[place] |= 0x80;
                list.add(b'p', started(before as u64, &octets));
            }
        }
    }
    // A PDU at the start, without ASDUs, that ends at the octet of the mark or before it.
    for length in [17, 18, 19] {
        let mut octets = vec![0x60, 0x05, 0x80, 0x01, 0x00, 0xa2, 0x00];
        octets.resize(length, 0xff);
        list.add(b'p', started(0, &octets));
    }
}

// ---- counters in the fixed form ----

fn fixed_form(list: &mut List) {
    let short = fixed(&frame_header(), &pdu_of(vec![one_asdu()])).octets;
    for length in 0..=short.len() {
        list.frame(&short[..length]);
    }
    for end in [&[0x00][..], &[0x88, 0x01, 0x05], &[0x89, 0x09]] {
        list.frame(&[&short[..], end].concat());
    }
    let mut counters = |smp_cnt, conf_rev, smp_synch| {
        let asdu = Asdu { smp_cnt, conf_rev, smp_synch, ..one_asdu() };
        list.frame(&fixed(&frame_header(), &pdu_of(vec![asdu])).octets);
    };
    U16S.into_iter().for_each(|smp_cnt| counters(smp_cnt, 1, 2));
    U32S.into_iter().for_each(|conf_rev| counters(5, conf_rev, 2));
    [0, 1, 127, 128, 255].into_iter().for_each(|smp_synch| counters(5, 1, smp_synch));
    // The same octets in both forms, and in one ASDU of two.
    counters(128, 8_388_608, 127);
    counters(32_767, 0x7fff_ffff, 0);
    let same = Asdu { smp_cnt: 4000, conf_rev: 0x0100_0000, ..one_asdu() };
    list.frame(&fixed(&tagged(), &pdu_of(vec![same, one_asdu()])).octets);
    for mask in 0..64 {
        let header = if mask % 2 == 0 { frame_header() } else { tagged() };
        list.frame(&fixed(&header, &some_fields(mask)).octets);
    }
    list.add(b'f', asked(&[1.0; 8], &fixed(&tagged(), &eight_by_eight()).octets));
    let long = Asdu { sv_id: vec![b'x'; 127], dat_set: Some(vec![b'y'; 127]), ..one_asdu() };
    list.frame(&fixed(&frame_header(), &pdu_of(vec![long])).octets);
}

// ---- writing ----

fn writing(list: &mut List) {
    let mut add = |header: &Header, pdu: &Pdu| list.add(b'e', described(header, pdu));
    let header = frame_header();
    let one = |value: f32, scale: f32, quality: u32| {
        let sample = Sample { value: value.to_bits(), scale: scale.to_bits(), quality };
        Asdu { samples: vec![sample], ..one_asdu() }
    };
    for (value, scale) in [
        (-0.5, 1.0),
        (2_147_483_648.0, 1.0),
        (2_147_483_904.0, 1.0),
        (-2_147_483_904.0, 1.0),
        (0.0, 0.0),
        (1.0, 0.0),
        (f32::NAN, 1.0),
        (f32::INFINITY, 1.0),
        (123.45, 0.01),
        (1.0, 1e-45),
    ] {
        add(&header, &pdu_of(vec![one(value, scale, 0)]));
    }
    for quality in [1, 0x1fff, 0x2000, 0xffff_ffff] {
        add(&tagged(), &pdu_of(vec![one(1.0, 1.0, quality)]));
    }
    // The place of the sample that is out of range.
    let large = one(3e9, 1.0, 0);
    add(&tagged(), &pdu_of(vec![one(1.0, 1.0, 0), large.clone()]));
    let mut second = one(1.0, 1.0, 0);
    second.samples.extend(large.samples);
    add(&header, &pdu_of(vec![second]));
    for (smp_cnt, conf_rev, smp_synch) in
        [(0, 0, 0), (127, 127, 127), (128, 128, 128), (255, 32_768, 255), (256, 65_535, 1)]
    {
        for (smp_rate, smp_mod) in [(0, 65_535), (128, 127), (32_768, 256)] {
            let (smp_rate, smp_mod) = (Some(smp_rate), Some(smp_mod));
            let asdu = Asdu { smp_cnt, conf_rev, smp_synch, smp_rate, smp_mod, ..one(1.0, 1.0, 0) };
            add(&header, &pdu_of(vec![asdu]));
        }
    }
    for conf_rev in U32S {
        add(&header, &pdu_of(vec![Asdu { conf_rev, ..one(1.0, 1.0, 0) }]));
    }
    // Outside of document 01's domain.
    for no_asdu in [0, 2, 8, 128, 65_535] {
        add(&header, &Pdu { no_asdu, ..pdu_of(vec![one(1.0, 1.0, 0)]) });
    }
    for (vlan, tpid, tci) in
        [(2, [0x81, 0x00], [0, 0]), (3, [0, 0], [0x60, 0x05]), (1, [0x88, 0xa8], [0, 5])]
    {
        add(&Header { vlan, tpid, tci, ..header.clone() }, &pdu_of(vec![one(1.0, 1.0, 0)]));
    }
    add(&Header { ether_type: [0x88, 0xb8], ..header.clone() }, &pdu_of(vec![one(1.0, 1.0, 0)]));
    add(&header, &pdu_of(vec![one(1.0, 1.0, 0), one_asdu_without_samples()]));
    let long = Asdu { sv_id: vec![b'x'; 128], ..one(1.0, 1.0, 0) };
    add(&header, &pdu_of(vec![long.clone()]));
    add(&header, &pdu_of(vec![Asdu { smp_mod: Some(1), ..long.clone() }]));
    add(&header, &pdu_of(vec![Asdu { gm_identity: Some([7; 8]), ..long }]));
    let longer = Asdu { sv_id: vec![b'x'; 256], ..one_asdu_without_samples() };
    let last = Asdu { sv_id: vec![b'x'; 256], ..one(1.0, 1.0, 0) };
    add(&header, &pdu_of(vec![longer.clone(), longer, last]));
    boundary(list);
}

fn one_asdu_without_samples() -> Asdu {
    Asdu { samples: vec![], ..one_asdu() }
}

/// PDUs of 127 to 260 and of 1,491 to 1,494 octets, by the length of their texts.
fn boundary(list: &mut List) {
    let header = frame_header();
    for length in [104, 105, 106, 107, 109, 110] {
        let asdu = Asdu { sv_id: vec![b'x'; length], ..one_asdu_without_samples() };
        list.both(&header, &pdu_of(vec![asdu]));
    }
    for length in [102, 103, 106, 107, 108] {
        let asdu = Asdu {
            sv_id: vec![b'x'; 125],
            dat_set: Some(vec![b'y'; length]),
            ..one_asdu_without_samples()
        };
        list.add(b'e', described(&header, &pdu_of(vec![asdu])));
    }
    for total in [1492, 1493] {
        let long = Asdu {
            sv_id: vec![b'x'; 127],
            dat_set: Some(vec![b'y'; 100]),
            ..one_asdu_without_samples()
        };
        let mut pdu = pdu_of(vec![long; 6]);
        let size = plain(&header, &pdu).octets.len() - header_size(&header);
        let dat_set = vec![b'z'; 100 + total - size];
        pdu.asdus[5].dat_set = Some(dat_set);
        let request = described(&header, &pdu);
        list.add(b'e', request.clone());
        if total == 1493 {
            list.add(b's', request);
        }
    }
}

// ---- some of the generator's ----

fn random(list: &mut List) {
    let mut random = Random(61850);
    let mut count = 0;
    while count < 100 {
        let request = generate::request(&mut random);
        if b"fpe".contains(&request.kind) && request.octets.len() <= 110 {
            list.add(request.kind, request.octets);
            count += 1;
        }
    }
    // Frames of odd length forms, whatever the length.
    for (length, form) in [(127, 1), (127, 2), (255, 2), (255, 3), (65_535, 3)] {
        let octets = frame::length_octets(length, form);
        list.add(b't', [&[0; 8][..], &[0x87], &octets].concat());
    }
}
