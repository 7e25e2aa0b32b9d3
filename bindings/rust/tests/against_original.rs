//! Holds the bindings to the original, in one process, on generated requests: HOPSICKLE_CASES of
//! them (300,000 where it isn't given) from HOPSICKLE_SEED (1). docs/DIFFERENCES.md has the
//! differences that are looked for here, docs/TESTING.md their classes.

mod environment;

use environment::number;
use hopsickle as ours;
use hopsickle::sys::{MAX_ASDUS, MAX_CHANNELS, MAX_FRAME, MAX_PDU, MAX_SECURITY, MAX_TEXT};
use hopsickle::{Form, Frame, Refusal};
use oracle::answer::{answer, quiet_panics, ACCEPTED, PANICKED, REFUSED};
use oracle::frame::{fixed, header_size};
use oracle::generate::{request, Random};
use oracle::hex::hex;
use oracle::layout::{asked, bits, described, Cursor, Header, Pdu};
use oracle::types as theirs;
use std::collections::BTreeMap;

/// A class of agreement, or what differs.
type Outcome = Result<&'static str, String>;

// ---- the records of one side as those of the other

macro_rules! records {
    ($name:ident, $from:ident, $to:ident) => {
        mod $name {
            use super::{$from, $to};

            pub fn header(h: &$from::EthernetHeader) -> $to::EthernetHeader {
                $to::EthernetHeader {
                    dst_addr: h.dst_addr,
                    src_addr: h.src_addr,
                    tpid: h.tpid,
                    tci: h.tci,
                    ether_type: h.ether_type,
                    appid: h.appid,
                    length: h.length,
                }
            }

            pub fn pdu(p: &$from::SavPdu) -> $to::SavPdu {
                $to::SavPdu {
                    sim: p.sim,
                    no_asdu: p.no_asdu,
                    security: p.security.clone(),
                    sav_asdu: p.sav_asdu.iter().map(asdu).collect(),
                }
            }

            fn asdu(a: &$from::SavAsdu) -> $to::SavAsdu {
                $to::SavAsdu {
                    msv_id: a.msv_id.clone(),
                    dat_set: a.dat_set.clone(),
                    smp_cnt: a.smp_cnt,
                    conf_rev: a.conf_rev,
                    refr_tm: a.refr_tm,
                    smp_synch: a.smp_synch,
                    smp_rate: a.smp_rate,
                    all_data: a.all_data.iter().map(sample).collect(),
                    smp_mod: a.smp_mod,
                    gm_identity: a.gm_identity,
                }
            }

            fn sample(s: &$from::Sample) -> $to::Sample {
                let quality = $to::Quality::from_sv(s.quality.to_sv());
                $to::Sample::new(s.value, quality, s.scale_factor)
            }
        }
    };
}

records!(to_theirs, ours, theirs);
records!(to_ours, theirs, ours);

fn laid_out(header: Option<&ours::EthernetHeader>, pdu: &ours::SavPdu) -> Vec<u8> {
    let mut out = vec![];
    if let Some(header) = header {
        Header::from_original(&to_theirs::header(header)).put(&mut out);
    }
    Pdu::from_original(&to_theirs::pdu(pdu)).put(&mut out).expect("a short description");
    out
}

fn data_set(request: &mut Cursor) -> Option<ours::SavDataSetConfig> {
    let mut config = vec![];
    for _ in 0..request.u8()? {
        config.push(ours::SavValueConfig::new(f32::from_bits(request.u32()?)));
    }
    Some(ours::SavDataSetConfig::new(config))
}

fn alike<T: PartialEq + std::fmt::Debug>(what: &str, one: T, other: T) -> Result<(), String> {
    if one == other {
        return Ok(());
    }
    Err(format!("{what}: {one:?}, and not {other:?}"))
}

// ---- reading

/// Whether the content at a place is longer than a limit, by the length octets before it.
fn longer(s: &[u8], place: usize, limit: usize) -> bool {
    let before =
        |i: usize| place.checked_sub(i).and_then(|at| s.get(at)).map_or(0, |x| *x as usize);
    let lengths = [
        (true, before(1)),
        (before(3) == 0x82, before(2) << 8 | before(1)),
        (before(4) == 0x83, before(3) << 16 | before(2) << 8 | before(1)),
    ];
    lengths.iter().any(|&(form, length)| form && limit < length)
}

/// Whether tag 84 and length octets stand before a place.
fn after_84(s: &[u8], place: usize) -> bool {
    let before = |i: usize| place.checked_sub(i).and_then(|at| s.get(at)).copied().unwrap_or(0);
    before(2) == 0x84 || (1..=3).any(|k| before(k + 2) == 0x84 && before(k + 1) == 0x80 | k as u8)
}

fn after_head(s: &[u8], at: usize) -> usize {
    match s.get(at + 1) {
        Some(first @ 0x81..=0x83) => at + 2 + usize::from(first - 0x80),
        _ => at + 2,
    }
}

/// Whether what stands at a place, in a PDU from `start` on, is above its limit.
fn above(s: &[u8], start: usize, place: usize) -> bool {
    let no_asdu = after_head(s, after_head(s, start));
    let length = s.get(no_asdu - 1).map_or(0, |x| *x as usize);
    let octet = |at: usize| s.get(at).map_or(0, |x| *x as usize);
    if place == no_asdu {
        return match length {
            0 => 0x80 <= octet(place),
            1 => MAX_ASDUS < octet(place),
            2 => MAX_ASDUS < octet(place) << 8 | octet(place + 1),
            _ => length == 3,
        };
    }
    if place == after_head(s, no_asdu + length) {
        return octet(no_asdu + length) == 0x81 && longer(s, place, MAX_SECURITY);
    }
    longer(s, place, MAX_TEXT)
}

/// Whether an answer of the original has something above a limit.
fn has_above(answer: &mut Cursor, header: bool) -> Option<bool> {
    if header {
        answer.header()?;
    }
    let pdu = answer.pdu()?;
    let long = |text: &[u8]| MAX_TEXT < text.len();
    Some(
        MAX_ASDUS < pdu.asdus.len()
            || pdu.security.is_some_and(|octets| MAX_SECURITY < octets.len())
            || pdu
                .asdus
                .iter()
                .any(|one| long(&one.sv_id) || one.dat_set.as_deref().is_some_and(long)),
    )
}

/// The class of a reading from `start` on; the original's answer has a header where `header` is.
fn class_of_reading(
    s: &[u8],
    start: usize,
    channels: usize,
    header: bool,
    theirs: &[u8],
    ours: &Result<Vec<u8>, Refusal>,
) -> Outcome {
    let differs = || Err(format!("{ours:?}, and not {}", hex(theirs)));
    let told = |class, holds| if holds { Ok(class) } else { differs() };
    let refused = ours.as_ref().err().map(|refusal| (refusal.number, refusal.place));
    if MAX_CHANNELS < channels {
        return told("too many channels: refused 8", refused == Some((8, 0)));
    }
    if let Some((4, place)) = refused {
        let holds = above(s, start, place)
            && match theirs[0] {
                ACCEPTED => has_above(&mut Cursor(&theirs[1..]), header) == Some(true),
                REFUSED => place <= Cursor(&theirs[2..]).u64().unwrap_or(0) as usize,
                _ => true,
            };
        return told("above a limit: refused 4", holds);
    }
    match (theirs, refused) {
        ([ACCEPTED, answer @ ..], None) => {
            told("answered alike", ours.as_ref().is_ok_and(|ours| ours == answer))
        }
        ([REFUSED, number, place @ ..], Some(refused)) => {
            let place = Cursor(place).u64().unwrap_or(0) as usize;
            told("refused alike", refused == (usize::from(*number), place))
        }
        ([PANICKED, 1], Some((1, place))) => {
            told("the original panics: refused 1 at the buffer length", place == s.len())
        }
        ([PANICKED, 2], Some((1, place))) => told(
            "the original panics, refrTm: refused 1",
            s.len() < place + 8 && after_84(s, place),
        ),
        ([PANICKED, 2], Some((5, place))) => {
            told("the original panics, gmIdentity: refused 5", longer(s, place, 8))
        }
        _ => differs(),
    }
}

fn frame(octets: &[u8]) -> Outcome {
    let mut asked = Cursor(octets);
    let config = data_set(&mut asked).ok_or("no data set")?;
    let s = asked.0;
    let read = ours::read_frame(s, &config);

    // The two calls of the original, one after the other.
    let mut header = ours::EthernetHeader::default();
    let start = ours::decode_ethernet_header(&mut header, s);
    let pdu = ours::decode_smv(s, start, &config);
    let answered = pdu.as_ref().map(|pdu| laid_out(Some(&header), pdu));
    let answered = answered.map_err(|error| error.refusal().expect("a refusal"));
    let frame = read.as_ref().map(|frame| laid_out(Some(&frame.header()), &frame.pdu()));
    alike("read_frame", frame.map_err(|refusal| *refusal), answered.clone())?;

    strict(s, &config, Form::Shortest, &read)?;
    strict(s, &config, Form::Fixed, &read)?;
    let theirs = answer(b'f', octets);
    let tagged = s.get(12..14) == Some(&[0x81, 0x00]);
    if config.config.len() <= MAX_CHANNELS && s.len() < if tagged { 22 } else { 18 } {
        let refusal = Refusal { number: Refusal::ENDS_TOO_SOON, place: s.len() };
        alike("header", (theirs[0], answered), (PANICKED, Err(refusal)))?;
        return Ok("the original panics, header: refused 1 at the buffer length");
    }
    let start = if tagged { 26 } else { 22 };
    class_of_reading(s, start, config.config.len(), true, &theirs, &answered)
}

/// Strict reading accepts what the writer writes again of what was read in that form, and nothing
/// else.
fn strict(
    s: &[u8],
    config: &ours::SavDataSetConfig,
    form: Form,
    read: &Result<Frame, Refusal>,
) -> Result<(), String> {
    let owed = match read {
        Err(refusal) => Err(*refusal),
        Ok(frame) => {
            let mut again = [0; MAX_FRAME];
            let size = frame.write(form, &mut again);
            let place = size.map_or(Some(0), |size| {
                let same = again[..size].iter().zip(s).take_while(|(one, other)| one == other);
                Some(same.count()).filter(|&same| same < size || same < s.len())
            });
            match place {
                Some(place) => Err(Refusal { number: Refusal::NOT_AS_WRITTEN, place }),
                None => Ok(frame),
            }
        }
    };
    match (ours::read_strict(s, config, form), owed) {
        (Err(one), Err(other)) => alike("strict reading", one, other),
        (Ok(one), Ok(other)) => {
            alike("strict reading, header", one.header(), other.header())?;
            let texts = |frame: &Frame| {
                let texts =
                    |i| (frame.sv_id(i).map(<[u8]>::to_vec), frame.dat_set(i).map(<[u8]>::to_vec));
                (0..=MAX_ASDUS).map(texts).collect::<Vec<_>>()
            };
            alike("strict reading, texts", texts(&one), texts(other))?;
            alike("strict reading, counts", one.counts(), other.counts())?;
            alike("strict reading, qualities", one.qualities(), other.qualities())?;
            alike("strict reading, PDU", laid_out(None, &one.pdu()), laid_out(None, &other.pdu()))
        }
        (strict, _) => Err(format!("strict reading: {:?}", strict.map(|frame| frame.pdu()))),
    }
}

fn pdu(octets: &[u8]) -> Outcome {
    let mut asked = Cursor(octets);
    let start = asked.u64().ok_or("no start")? as usize;
    let config = data_set(&mut asked).ok_or("no data set")?;
    let s = asked.0;
    let read = ours::decode_smv(s, start, &config).map(|pdu| laid_out(None, &pdu));
    let read = read.map_err(|error| error.refusal().expect("a refusal"));
    class_of_reading(s, start, config.config.len(), false, &answer(b'p', octets), &read)
}

fn header(octets: &[u8]) -> Outcome {
    let before = ours::EthernetHeader { appid: [1, 2], ..ours::EthernetHeader::default() };
    let mut header = before.clone();
    let place = ours::decode_ethernet_header(&mut header, octets);
    match &answer(b'h', octets)[..] {
        [ACCEPTED, answer @ ..] => {
            let mut out = vec![];
            Header::from_original(&to_theirs::header(&header)).put(&mut out);
            out.extend((place as u64).to_be_bytes());
            alike("header", &out[..], answer)?;
            Ok("answered alike")
        }
        _ => {
            alike("header", (header, place), (before, octets.len()))?;
            Ok("the original panics: the header as lent, the buffer length")
        }
    }
}

fn frame_test(octets: &[u8]) -> Outcome {
    alike("is_smv_frame", &answer(b'i', octets)[1..], &[u8::from(ours::is_smv_frame(octets))])?;
    Ok("answered alike")
}

// ---- writing

/// What is refused of a description before its values and its size are looked at, by document 01's
/// limits; and what no description can say.
fn refused_as(header: &Header, pdu: &Pdu) -> Option<(usize, &'static str)> {
    let channels = pdu.asdus.first().map_or(0, |asdu| asdu.samples.len());
    let long = |text: &[u8]| MAX_TEXT < text.len();
    if 1 < header.vlan {
        return Some((9, "half a VLAN tag: refused 9"));
    }
    if usize::from(pdu.no_asdu) != pdu.asdus.len() {
        return Some((9, "noASDU other than the number of ASDUs: refused 9"));
    }
    if pdu.asdus.iter().any(|asdu| asdu.samples.len() != channels) {
        return Some((9, "numbers of samples that differ: refused 9"));
    }
    if MAX_CHANNELS < channels {
        return Some((8, "too many channels: refused 8"));
    }
    let outside = !(1..=MAX_ASDUS).contains(&pdu.asdus.len())
        || header.ether_type != [0x88, 0xba]
        || header.vlan == 1 && header.tpid != [0x81, 0x00]
        || pdu.security.as_ref().is_some_and(|octets| MAX_SECURITY < octets.len())
        || pdu.asdus.iter().any(|one| long(&one.sv_id) || one.dat_set.as_deref().is_some_and(long));
    outside.then_some((9, "outside the limits: refused 9"))
}

/// The writer on a description, whose scale factors are made to differ between ASDUs now and then.
fn encode(random: &mut Random, octets: &[u8]) -> Outcome {
    let mut asked = Cursor(octets);
    let (header, mut pdu) = asked.header().zip(asked.pdu()).ok_or("no description")?;
    if random.percent(30) {
        for asdu in pdu.asdus.iter_mut().skip(1) {
            for sample in &mut asdu.samples {
                sample.scale = random.pick(&[sample.scale, 1f32.to_bits(), 0.01f32.to_bits()]);
            }
        }
    }
    if random.percent(2) {
        if let Some(asdu) = pdu.asdus.last_mut() {
            asdu.samples.pop();
        }
    }
    let original = pdu.to_original().ok_or("a text that isn't UTF-8")?;
    let (our_header, our_pdu) = (to_ours::header(&header.to_original()), to_ours::pdu(&original));
    let theirs = answer(b'e', &described(&header, &pdu));
    let (class, owed) = match (refused_as(&header, &pdu), &theirs[..]) {
        (Some((number, class)), _) => (class, Err(number)),
        (None, [REFUSED, 11, ..]) => ("refused alike, at 0", Err(11)),
        (None, [ACCEPTED, frame @ ..]) if MAX_PDU < frame.len() - header_size(&header) => {
            ("PDU too long to write: refused 10", Err(10))
        }
        (None, [ACCEPTED, frame @ ..]) => ("answered alike", Ok(frame.to_vec())),
        _ => return Err(format!("the original answers {}", hex(&theirs))),
    };
    let owed = owed.map_err(|number| Refusal { number, place: 0 });
    let written = ours::encode_smv(&our_header, &our_pdu);
    let written = written.map_err(|error| error.refusal().expect("a refusal"));
    alike("encode_smv", &written, &owed)?;

    let size = written.as_ref().map(Vec::len).map_err(|refusal| *refusal);
    if size.is_ok() || size.is_err_and(|refusal| refusal.number != Refusal::VALUE_OUT_OF_RANGE) {
        alike("smv_size", ours::smv_size(&our_header, &our_pdu, Form::Shortest), size)?;
    }
    let Ok(frame) = &written else {
        return Ok(class);
    };
    let scales = our_pdu.sav_asdu[0].all_data.iter().map(|one| one.scale_factor);
    let scales: Vec<f32> = scales.collect();
    let config = scales.iter().map(|&scale| ours::SavValueConfig::new(scale)).collect();
    let read = ours::read_strict(frame, &ours::SavDataSetConfig::new(config), Form::Shortest);
    let counts = read.map_err(|refusal| refusal.to_string())?.counts().to_vec();
    let again = ours::encode_counts(&our_header, &our_pdu, &counts, Form::Shortest);
    alike("encode_counts", again.as_ref(), Ok(frame))?;

    let owed = fixed_frame(&header, &pdu, &counts);
    let written = ours::encode_values(&our_header, &our_pdu, Form::Fixed);
    alike("fixed form", &written, &owed)?;
    let again = ours::encode_counts(&our_header, &our_pdu, &counts, Form::Fixed);
    alike("fixed form, of counts", &again, &owed)?;
    let size = ours::smv_size(&our_header, &our_pdu, Form::Fixed);
    alike("fixed form, size", size, owed.as_ref().map(Vec::len).map_err(|refusal| *refusal))?;
    if let Ok(fixed) = &written {
        let (mut header, pdu) = read_by_original(&scales, frame);
        let length = fixed.len() - header_size(&header) + 8;
        header.length = (length as u16).to_be_bytes();
        alike("fixed form, read", read_by_original(&scales, fixed), (header, pdu))?;
    }
    let scales = |i: usize| pdu.asdus[i].samples.iter().map(|sample| sample.scale);
    let one = (0..pdu.asdus.len()).all(|i| scales(i).eq(scales(0)));
    Ok(match (one, written.is_ok()) {
        (true, true) => "answered alike; the fixed form read alike",
        (true, false) => "answered alike; the fixed form refused 10",
        (false, true) => "answered alike, scale factors that differ; the fixed form read alike",
        (false, false) => "answered alike, scale factors that differ; the fixed form refused 10",
    })
}

/// What is owed in the fixed form for a description with these counts, by the oracle's own writer.
fn fixed_frame(header: &Header, pdu: &Pdu, counts: &[i32]) -> Result<Vec<u8>, Refusal> {
    let mut pdu = pdu.clone();
    let samples = pdu.asdus.iter_mut().flat_map(|asdu| &mut asdu.samples);
    for (sample, count) in samples.zip(counts) {
        sample.value = *count as u32;
        sample.quality = theirs::Quality::from_sv(sample.quality).to_sv();
    }
    let frame = fixed(header, &pdu).octets;
    if MAX_PDU < frame.len() - header_size(header) {
        return Err(Refusal { number: Refusal::TOO_LONG_TO_WRITE, place: 0 });
    }
    Ok(frame)
}

/// What the original reads of a frame.
fn read_by_original(scales: &[f32], frame: &[u8]) -> (Header, Pdu) {
    let answer = answer(b'f', &asked(scales, frame));
    assert_eq!(answer[0], ACCEPTED);
    let mut answer = Cursor(&answer[1..]);
    answer.header().zip(answer.pdu()).expect("a description")
}

fn size(octets: &[u8]) -> Outcome {
    let mut asked = Cursor(octets);
    let (header, pdu) = asked.header().zip(asked.pdu()).ok_or("no description")?;
    let original = pdu.to_original().ok_or("a text that isn't UTF-8")?;
    let (our_header, our_pdu) = (to_ours::header(&header.to_original()), to_ours::pdu(&original));
    let size = ours::smv_size(&our_header, &our_pdu, Form::Shortest);
    let theirs = answer(b's', octets);
    let number = Cursor(&theirs[1..]).u32().unwrap_or(0) as usize;
    let (class, owed) = match refused_as(&header, &pdu) {
        Some((number, class)) => (class, Err(number)),
        None if MAX_PDU < number - header_size(&header) => {
            ("PDU too long to write: refused 10", Err(10))
        }
        None => ("answered alike", Ok(number)),
    };
    alike("smv_size", size, owed.map_err(|number| Refusal { number, place: 0 }))?;
    Ok(class)
}

/// A frame of one sample.
fn of_one_sample(value: f32, scale: f32) -> (ours::EthernetHeader, ours::SavPdu) {
    let header = ours::EthernetHeader { ether_type: [0x88, 0xba], ..Default::default() };
    let all_data = vec![ours::Sample::new(value, ours::Quality::default(), scale)];
    let sav_asdu = vec![ours::SavAsdu { all_data, ..Default::default() }];
    (header, ours::SavPdu { no_asdu: 1, sav_asdu, ..Default::default() })
}

fn count_of_value(octets: &[u8]) -> Outcome {
    let mut asked = Cursor(octets);
    let (value, scale) = asked.u32().zip(asked.u32()).ok_or("no value")?;
    let (header, pdu) = of_one_sample(f32::from_bits(value), f32::from_bits(scale));
    let config = ours::SavDataSetConfig::new(vec![ours::SavValueConfig::new(1.0)]);
    let count = match ours::encode_smv(&header, &pdu) {
        Ok(frame) => {
            let read = ours::read_strict(&frame, &config, Form::Shortest);
            Ok(read.map_err(|refusal| refusal.to_string())?.counts()[0])
        }
        Err(error) => Err(error.refusal().map_or(0, |refusal| refusal.number)),
    };
    let (class, owed) = match &answer(b'c', octets)[..] {
        [ACCEPTED, count @ ..] => ("answered alike", Ok(Cursor(count).u32().unwrap_or(0) as i32)),
        _ => ("refused alike, at 0", Err(Refusal::VALUE_OUT_OF_RANGE)),
    };
    alike("count", count, owed)?;
    Ok(class)
}

fn value_of_count(octets: &[u8]) -> Outcome {
    let mut asked = Cursor(octets);
    let (count, scale) = asked.u32().zip(asked.u32()).ok_or("no count")?;
    let scale = f32::from_bits(scale);
    let (header, pdu) = of_one_sample(0.0, scale);
    let frame = ours::encode_counts(&header, &pdu, &[count as i32], Form::Shortest);
    let frame = frame.map_err(|refusal| refusal.to_string())?;
    let config = ours::SavDataSetConfig::new(vec![ours::SavValueConfig::new(scale)]);
    let read = ours::decode_smv(&frame, 22, &config).map_err(|error| error.to_string())?;
    let value = bits(read.sav_asdu[0].all_data[0].value);
    alike("value", &value.to_be_bytes()[..], &answer(b'v', octets)[1..])?;
    Ok("answered alike")
}

// ---- types

oracle::of_types!(ours);

fn types(kind: u8, octets: &[u8]) -> Outcome {
    // Of a fraction of 2^24 or more the low 24 bits count here, and all 32 there.
    let beyond = |fraction| 1 << 24 <= fraction;
    if kind != b'n' || !Cursor(octets).u32().is_some_and(beyond) {
        let answered = of_types(kind, &mut Cursor(octets)).ok_or("no request of types")?;
        alike("type", [&[ACCEPTED], &answered[..]].concat(), answer(kind, octets))?;
    }
    Ok("answered alike")
}

// ---- all of them

fn outcome(random: &mut Random, kind: u8, octets: &[u8]) -> Outcome {
    match kind {
        b'f' => frame(octets),
        b'p' => pdu(octets),
        b'h' => header(octets),
        b'i' => frame_test(octets),
        b'e' => encode(random, octets),
        b's' => size(octets),
        b'c' => count_of_value(octets),
        b'v' => value_of_count(octets),
        b'q' | b'b' | b'd' | b'w' | b'n' => types(kind, octets),
        _ => Ok("not a call of the bindings"),
    }
}

#[test]
fn generated_requests() {
    quiet_panics();
    let mut random = Random(number("HOPSICKLE_SEED", 1));
    let mut other = Random(!random.0);
    let mut classes: BTreeMap<(char, &str), usize> = BTreeMap::new();
    let mut unexplained = vec![];
    for _ in 0..number("HOPSICKLE_CASES", 300_000) {
        let asked = request(&mut random);
        match outcome(&mut other, asked.kind, &asked.octets) {
            Ok(class) => *classes.entry((asked.kind as char, class)).or_default() += 1,
            Err(what) => {
                unexplained.push(format!("{} {}: {what}", asked.kind as char, hex(&asked.octets)))
            }
        }
    }
    let _ = std::panic::take_hook();
    for ((kind, class), count) in &classes {
        println!("{kind} {class}: {count}");
    }
    let first: Vec<_> = unexplained.iter().take(5).collect();
    assert!(unexplained.is_empty(), "{} unexplained differences: {first:#?}", unexplained.len());
}
