//! The conformance list, docs/conformance.txt or the file that HOPSICKLE_LIST names: every call of every
//! case, by the functions of the library and by the crate's own interface, is held to the answer there.

#[allow(dead_code)]
mod arrays;
mod list;
#[path = "../src/slices.rs"]
#[allow(dead_code)]
mod slices;

use arrays::Arrays;
use hopsickle::sys::{self, *};
use hopsickle::{
    decode_ethernet_header, decode_smv, encode_counts, encode_values, is_smv_frame, read_by_sets,
    read_checked, read_frame, read_granted, read_strict, smv_size, DataSets, EthernetHeader, Form,
    Frame, Quality, Refusal, Sample, SavAsdu, SavDataSetConfig, SavPdu, SavValueConfig,
    TimeQuality, Timestamp,
};
use list::flat::put;
use list::{Answer, Asdu, Asked, Call, Case, Given, Reading};
use oracle::hex::hex;
use std::collections::BTreeMap;
use std::fmt::Debug;

// What is lent is filled with these before a call; `Arrays` has its own.
const NUMBER: usize = 77;
const OCTET: u8 = 0xa5;
const FLOAT: f32 = -7.25;

/// What was answered otherwise than the list has it, in words.
#[derive(Default)]
struct Differences(Vec<String>);

impl Differences {
    fn hold<T: PartialEq + Debug>(&mut self, what: &str, answered: T, owed: T) {
        if answered != owed {
            self.0.push(format!("{what}: {answered:?}, not {owed:?}"));
        }
    }

    /// Holds an array, and says the first element that differs.
    fn hold_array<T: PartialEq + Debug>(&mut self, what: &str, answered: &[T], owed: &[T]) {
        let differs = |i: &usize| answered.get(*i) != owed.get(*i);
        if let Some(i) = (0..answered.len().max(owed.len())).find(differs) {
            self.hold(&format!("{what} {i}"), answered.get(i), owed.get(i));
        }
    }

    /// Holds floats of an answer, in which the list has one NaN for all.
    fn hold_floats(&mut self, what: &str, answered: &[f32], owed: &[f32]) {
        let owed: Vec<u32> = owed.iter().map(|float| float.to_bits()).collect();
        self.hold_array(what, &bits(answered), &owed);
    }

    fn hold_arrays(&mut self, answered: &Arrays, owed: &Arrays) {
        self.hold_array("number", &answered.numbers, &owed.numbers);
        self.hold_array("octet", &answered.octets, &owed.octets);
        self.hold_array("count", &answered.counts, &owed.counts);
        self.hold_array("quality word", &answered.qualities, &owed.qualities);
    }
}

/// The bits of floats, the same for every NaN.
fn bits(floats: &[f32]) -> Vec<u32> {
    let one = |float: &f32| if float.is_nan() { f32::NAN } else { *float };
    floats.iter().map(|float| one(float).to_bits()).collect()
}

// ---- by the functions of the library

/// The store of data sets of a case, in the library's arrays and in the crate's type.
struct Store {
    numbers: [u32; SET_NUMBERS],
    scales: [f32; SET_SCALES],
    sets: DataSets,
}

impl Store {
    /// A store that holds no set, with what no addition leaves in its other elements.
    fn empty() -> Store {
        let mut numbers = [NUMBER as u32; SET_NUMBERS];
        numbers[SETS_HELD] = 0;
        Store { numbers, scales: [FLOAT; SET_SCALES], sets: DataSets::new() }
    }
}

/// What a function of the library answers, with what it leaves in its last argument.
fn answer(call: impl FnOnce(&mut usize) -> usize) -> Answer<usize> {
    let mut left = NUMBER;
    match call(&mut left) {
        ACCEPTED => Ok(left),
        number => Err(Refusal { number, place: left }),
    }
}

/// The differences of what the library answers; `None` where it has no such call.
fn by_library(asked: &Asked, store: &mut Store) -> Option<Differences> {
    let given = &asked.given;
    let mut held = Differences::default();
    match &asked.call {
        Call::Write(form, owed) => {
            let ((n, o), fixed) = (given.described(), *form == Form::Fixed);
            let (channels, counts, qualities) = (given.channels, &given.counts, &given.qualities);
            held.written(given, owed, |frame, size| {
                slices::write(&n, &o, channels, fixed, counts, qualities, frame, size)
            });
        }
        Call::WriteValues(form, owed) => {
            let ((n, o), fixed) = (given.described(), *form == Form::Fixed);
            let (scales, values, qualities) = (&given.scales, &given.values, &given.qualities);
            held.written(given, owed, |frame, size| {
                slices::write_values(&n, &o, scales, fixed, values, qualities, frame, size)
            });
        }
        Call::Size(form, owed) => {
            let ((n, o), fixed) = (given.described(), *form == Form::Fixed);
            let answered = answer(|size| slices::size(&n, &o, given.channels, fixed, size));
            held.hold("answer", answered, *owed);
        }
        Call::Read(reading, owed) => held.read(given, reading, owed),
        Call::Header(owed) => held.header(given, owed),
        Call::IsSmv(owed) => {
            let (octets, length) = (given.octets.as_ptr(), given.octets.len());
            // SAFETY: the pointer is that of a vector of as many octets.
            held.hold("answer", unsafe { hopsickle_is_smv(octets, length) }, *owed);
        }
        Call::ValuesOf(no_asdu, owed) => held.values(given, *no_asdu, owed),
        Call::ValueOf { count, scale, value } => {
            let (counts, scales, values) = (vec![*count], vec![*scale], vec![*value]);
            let one = Given { counts, scales, values, ..Given::default() };
            held.values(&one, 1, &Ok(()));
        }
        Call::CountOf { value, scale, count } => held.count(*value, *scale, count),
        Call::SetsAdd(conf_rev, owed) => held.added(given, store, *conf_rev, owed),
        Call::ReadBySets(owed) => held.read_by_sets(given, store, owed),
        Call::IsGood(..) | Call::Nanoseconds { .. } | Call::Absent => return None,
    }
    Some(held)
}

impl Differences {
    fn written(
        &mut self,
        given: &Given,
        owed: &Answer<()>,
        write: impl FnOnce(&mut [u8], &mut usize) -> usize,
    ) {
        let mut after = vec![OCTET; given.buffer.unwrap_or(MAX_FRAME)];
        let mut frame = after.clone();
        if owed.is_ok() {
            put(&mut frame, &given.octets);
        }
        let answered = answer(|size| write(&mut after, size));
        self.hold("answer", answered, owed.map(|()| given.octets.len()));
        self.hold_array("octet", &after, &frame);
    }

    fn read(&mut self, given: &Given, reading: &Reading, owed: &Answer<()>) {
        let mut after = given.lent();
        let Arrays { numbers: n, octets: o, counts: c, qualities: q, .. } = &mut after;
        let (octets, channels) = (&given.octets[..], given.channels);
        let answered = answer(|p| match *reading {
            Reading::Ordinary => slices::read(octets, channels, n, o, c, q, p),
            Reading::Strict(form) => {
                slices::read_strict(octets, channels, form == Form::Fixed, n, o, c, q, p)
            }
            Reading::Checked => slices::read_checked(octets, channels, n, o, c, q, p),
            Reading::Granted(mask) => slices::read_granted(octets, channels, mask, n, o, c, q, p),
            Reading::Pdu(start) => slices::decode(octets, start, channels, n, o, c, q, p),
        });
        self.hold("answer", answered, owed.map(|()| 0));
        let mut arrays = if owed.is_ok() { given.handed_back() } else { given.lent() };
        if let (Reading::Pdu(_), Ok(())) = (reading, owed) {
            arrays.numbers[..HEADER_NUMBERS].fill(0);
            arrays.octets[..HEADER_OCTETS].fill(0);
        }
        self.hold_arrays(&after, &arrays);
    }

    fn header(&mut self, given: &Given, owed: &Answer<usize>) {
        let mut after = given.lent();
        let Arrays { numbers, octets, .. } = &mut after;
        let answered = answer(|place| slices::header(&given.octets, numbers, octets, place));
        self.hold("answer", answered, *owed);
        let mut arrays = given.lent();
        if owed.is_ok() {
            let (numbers, octets) = given.description();
            put(&mut arrays.numbers, &numbers[..HEADER_NUMBERS]);
            put(&mut arrays.octets, &octets[..HEADER_OCTETS]);
        }
        self.hold_arrays(&after, &arrays);
    }

    fn values(&mut self, given: &Given, no_asdu: u16, owed: &Answer<()>) {
        let Given { scales, counts, .. } = given;
        let mut after = vec![FLOAT; given.lent().counts.len()];
        let mut values = after.clone();
        if owed.is_ok() {
            put(&mut values, &given.values);
        }
        let call = |written: &mut _| slices::values(scales, no_asdu, counts, &mut after, written);
        self.hold("answer", answer(call), owed.map(|()| given.values.len()));
        self.hold_floats("value", &after, &values);
    }

    /// The count of a value: that of the frame that is written of it.
    fn count(&mut self, value: f32, scale: f32, owed: &Answer<i32>) {
        let asdus = vec![Asdu::default()];
        let given = Given { ether_type: 0x88ba, asdus, ..Given::default() };
        let (n, o) = given.described();
        let mut frame = [OCTET; MAX_FRAME];
        let written = answer(|size| {
            slices::write_values(&n, &o, &[scale], false, &[value], &[0], &mut frame, size)
        });
        let count = written.map(|size| {
            let mut read = given.lent();
            assert_eq!(read.read(None, &frame[..size], 1), ACCEPTED);
            read.counts[0]
        });
        self.hold("answer", count, *owed);
        if count.is_err() {
            self.hold_array("octet", &frame, &[OCTET; MAX_FRAME]);
        }
    }

    fn added(&mut self, given: &Given, store: &mut Store, conf_rev: u32, owed: &Answer<usize>) {
        let (mut numbers, mut scales) = (store.numbers, store.scales);
        let answered = answer(|held| {
            slices::sets_add(&mut store.numbers, &mut store.scales, conf_rev, &given.scales, held)
        });
        self.hold("answer", answered, *owed);
        if let (Ok(held), true) = (*owed, answered == *owed) {
            let i = held - 1;
            numbers[SETS_HELD] = held as u32;
            numbers[set_conf_rev(i)] = conf_rev;
            numbers[set_channels(i)] = given.scales.len() as u32;
            scales[set_scale(i, 0)..set_scale(i + 1, 0)].copy_from_slice(&padded(&given.scales));
        }
        self.hold_array("number of the store", &store.numbers, &numbers);
        self.hold_array("scale factor of the store", &bits(&store.scales), &bits(&scales));
    }

    fn read_by_sets(&mut self, given: &Given, store: &Store, owed: &Answer<()>) {
        let mut after = given.lent();
        let Arrays { numbers: n, octets: o, counts: c, qualities: q, .. } = &mut after;
        let (sets, set_scales) = (&store.numbers, &store.scales);
        let (mut channels, mut scales) = (NUMBER, [FLOAT; MAX_CHANNELS]);
        let (m, s) = (&mut channels, &mut scales);
        let answered =
            answer(|p| slices::read_by_sets(&given.octets, sets, set_scales, m, s, n, o, c, q, p));
        self.hold("answer", answered, owed.map(|()| 0));
        let (arrays, of_set) = match owed {
            Ok(()) => (given.handed_back(), (given.scales.len(), padded(&given.scales))),
            Err(_) => (given.lent(), (NUMBER, vec![FLOAT; MAX_CHANNELS])),
        };
        self.hold_arrays(&after, &arrays);
        self.hold("channels", channels, of_set.0);
        self.hold_floats("scale factor", &scales, &of_set.1);
    }
}

/// Scale factors with zeros past them, as a store has them.
fn padded(scales: &[f32]) -> Vec<f32> {
    let mut padded = vec![0.0; MAX_CHANNELS];
    put(&mut padded, scales);
    padded
}

// ---- by the crate's own interface

fn data_set(scales: &[f32]) -> SavDataSetConfig {
    SavDataSetConfig::new(scales.iter().copied().map(SavValueConfig::new).collect())
}

/// The bits of the scale factors of a data set.
fn scale_bits(set: &SavDataSetConfig) -> Vec<u32> {
    bits(&set.config.iter().map(|channel| channel.scale_factor).collect::<Vec<f32>>())
}

impl Asdu {
    /// The record, with these samples; `None` where a number is beyond its width.
    fn record(&self, all_data: Vec<Sample>) -> Option<SavAsdu> {
        let text = |octets: &Vec<u8>| String::from_utf8_lossy(octets).into_owned();
        Some(SavAsdu {
            msv_id: text(&self.sv_id),
            dat_set: self.dat_set.as_ref().map(text),
            smp_cnt: self.smp_cnt.try_into().ok()?,
            conf_rev: self.conf_rev,
            refr_tm: self.refr_tm,
            smp_synch: self.smp_synch.try_into().ok()?,
            smp_rate: self.smp_rate.map(u16::try_from).transpose().ok()?,
            all_data,
            smp_mod: self.smp_mod.map(u16::try_from).transpose().ok()?,
            gm_identity: self.gm_identity,
        })
    }

    /// Whether the texts are UTF-8.
    fn is_text(&self) -> bool {
        let is_text = |octets: &[u8]| std::str::from_utf8(octets).is_ok();
        is_text(&self.sv_id) && self.dat_set.as_deref().is_none_or(is_text)
    }
}

impl Given {
    /// The record of the header; `None` where a number is beyond its width.
    fn header(&self) -> Option<EthernetHeader> {
        let two = |number: u32| u16::try_from(number).ok().map(u16::to_be_bytes);
        let (tpid, tci) = match self.vlan {
            Some((tpid, tci)) => (Some(two(tpid)?), Some(two(tci)?)),
            None => (None, None),
        };
        Some(EthernetHeader {
            dst_addr: self.destination,
            src_addr: self.source,
            tpid,
            tci,
            ether_type: two(self.ether_type)?,
            appid: two(self.appid)?,
            length: two(self.length)?,
        })
    }

    /// The record of the PDU, with these scale factors in each ASDU and these values, 0 where there are none;
    /// `None` where a number is beyond its width.
    fn pdu(&self, scales: &[f32], values: &[f32]) -> Option<SavPdu> {
        let sample = |(k, scale): (usize, &f32)| {
            let word = self.qualities.get(k).copied().unwrap_or_default();
            let value = values.get(k).copied().unwrap_or_default();
            Sample::new(value, Quality::from_sv(word), *scale)
        };
        let samples = |i: usize| (i * scales.len()..).zip(scales).map(sample).collect();
        let asdus = self.asdus.iter().enumerate().map(|(i, asdu)| asdu.record(samples(i)));
        Some(SavPdu {
            sim: self.simulation,
            no_asdu: self.asdus.len() as u16,
            security: self.security.clone(),
            sav_asdu: asdus.collect::<Option<_>>()?,
        })
    }

    /// The record of the PDU that a reading with these scale factors hands back.
    fn read_pdu(&self, scales: &[f32]) -> Option<SavPdu> {
        let samples = self.counts.iter().zip(scales.iter().cycle());
        let values: Vec<f32> = samples.map(|(count, scale)| *count as f32 * scale).collect();
        self.pdu(scales, &values)
    }

    /// Whether a reading can be asked of the crate, whose arrays are always long enough.
    fn is_readable(&self) -> bool {
        self.flat.is_none() && self.room.is_none()
    }

    /// The records of a description of so many channels, with these values; `None` where they can't say it:
    /// a text that isn't UTF-8, a number beyond its width or of the arrays, channels without ASDUs.
    fn records(&self, scales: &[f32], values: &[f32]) -> Option<(EthernetHeader, SavPdu)> {
        let is_said = self.flat.is_none()
            && self.numbers.is_empty()
            && self.asdus.iter().all(Asdu::is_text)
            && (scales.is_empty() || !self.asdus.is_empty());
        is_said.then_some((self.header()?, self.pdu(scales, values)?))
    }

    /// The same with quality words; `None` also where there are more or fewer of them than samples, one is
    /// beyond its width, or the buffer isn't the crate's.
    fn samples(&self, scales: &[f32], values: &[f32]) -> Option<(EthernetHeader, SavPdu)> {
        let is_said = self.buffer.is_none()
            && self.qualities.len() == self.asdus.len() * scales.len()
            && self.qualities.iter().all(|word| *word < QUALITY_LIMIT);
        self.records(scales, values).filter(|_| is_said)
    }
}

/// The differences of what the crate answers; `None` where it has no such call, or none for this case.
fn by_crate(asked: &Asked, sets: &mut DataSets) -> Option<Differences> {
    let given = &asked.given;
    let ones = vec![1.0; given.channels];
    let text = |octets: Vec<u8>| hex(&octets);
    let mut held = Differences::default();
    match &asked.call {
        Call::Write(form, owed) => {
            let (header, pdu) = given.samples(&ones, &[])?;
            let frame = encode_counts(&header, &pdu, &given.counts, *form);
            held.hold("encode_counts", frame.map(text), owed.map(|()| hex(&given.octets)));
        }
        Call::WriteValues(form, owed) if given.values.len() == given.qualities.len() => {
            let (header, pdu) = given.samples(&given.scales, &given.values)?;
            let frame = encode_values(&header, &pdu, *form);
            held.hold("encode_values", frame.map(text), owed.map(|()| hex(&given.octets)));
        }
        Call::Size(form, owed) => {
            let (header, pdu) = given.records(&ones, &[])?;
            held.hold("smv_size", smv_size(&header, &pdu, *form), *owed);
        }
        Call::Read(reading, owed) if given.is_readable() => held.read_frame(given, reading, owed),
        Call::Header(owed) if given.is_readable() => {
            let left = EthernetHeader { appid: [OCTET; 2], ..EthernetHeader::default() };
            let mut header = left.clone();
            let place = decode_ethernet_header(&mut header, &given.octets);
            let owed = match owed {
                Ok(place) => (*place, given.header()),
                Err(refusal) => (refusal.place, Some(left)),
            };
            held.hold("decode_ethernet_header", (place, Some(header)), owed);
        }
        Call::IsSmv(owed) => held.hold("is_smv_frame", is_smv_frame(&given.octets), *owed),
        Call::SetsAdd(conf_rev, owed) => {
            held.hold("DataSets::add", sets.add(*conf_rev, &data_set(&given.scales)), *owed);
            if let Ok(owed) = owed {
                let set = sets.get(*conf_rev).as_ref().map(scale_bits);
                held.hold("DataSets::len", sets.len(), *owed);
                held.hold("DataSets::get", set, Some(bits(&given.scales)));
            }
        }
        Call::ReadBySets(owed) if given.is_readable() => {
            let read = read_by_sets(&given.octets, sets).map(|(frame, set)| {
                held.hold("data set", scale_bits(&set), bits(&given.scales));
                frame
            });
            held.frame(given, read, owed, &given.scales);
        }
        Call::IsGood(word, owed) => held.hold("is_good", Quality::from_sv(*word).is_good(), *owed),
        Call::Nanoseconds { fraction, nanoseconds } => {
            let (fraction, quality) = (*fraction, TimeQuality::default());
            let time = Timestamp { seconds: 0, fraction, quality };
            held.hold("fraction_as_nanos", time.fraction_as_nanos(), *nanoseconds);
        }
        _ => return None,
    }
    Some(held)
}

impl Differences {
    fn read_frame(&mut self, given: &Given, reading: &Reading, owed: &Answer<()>) {
        let octets = &given.octets;
        let mut scales = vec![1.0; given.channels];
        let config = data_set(&scales);
        let read = match *reading {
            Reading::Ordinary => read_frame(octets, &config),
            Reading::Strict(form) => read_strict(octets, &config, form),
            Reading::Checked => read_checked(octets, &config),
            Reading::Granted(mask) => {
                let is_shown = |i: &usize| *i < u32::BITS as usize && mask >> i & 1 == 1;
                scales.truncate((0..given.channels).filter(is_shown).count());
                read_granted(octets, &config, mask)
            }
            Reading::Pdu(start) => {
                let pdu = decode_smv(octets, start, &config).map(Some);
                let owed = owed.map(|()| given.read_pdu(&scales)).map_err(Some);
                return self.hold("decode_smv", pdu.map_err(|error| error.refusal()), owed);
            }
        };
        self.frame(given, read, owed, &scales);
    }

    /// Holds a frame that was read with these scale factors.
    fn frame(
        &mut self,
        given: &Given,
        read: Result<Frame, Refusal>,
        owed: &Answer<()>,
        scales: &[f32],
    ) {
        self.hold("answer", read.as_ref().map(|_| ()).map_err(|refusal| *refusal), *owed);
        let (Ok(frame), Ok(())) = (read, owed) else { return };
        // As text, in which every NaN is the same.
        let text = |pdu: Option<SavPdu>| format!("{pdu:?}");
        self.hold("pdu", text(Some(frame.pdu())), text(given.read_pdu(scales)));
        self.hold("header", Some(frame.header()), given.header());
        self.hold_array("count", frame.counts(), &given.counts);
        self.hold_array("quality word", frame.qualities(), &given.qualities);
        for (i, asdu) in given.asdus.iter().enumerate() {
            self.hold("svID", frame.sv_id(i), Some(&asdu.sv_id));
            self.hold("datSet", frame.dat_set(i), asdu.dat_set.as_deref());
        }
    }
}

// ---- the list

/// By the first word of a call: how many there are, and how many answers of the library and of the crate.
type Counts<'a> = BTreeMap<&'a str, [usize; 3]>;

/// Carries out the calls of a case, counts them, and says what differs.
fn carry_out<'a>(case: &'a Case, counts: &mut Counts<'a>) -> Vec<String> {
    let mut store = Store::empty();
    let mut all = vec![];
    for asked in &case.calls {
        let answers = [by_library(asked, &mut store), by_crate(asked, &mut store.sets)];
        let [calls, answered @ ..] = counts.entry(&asked.word).or_default();
        *calls += 1;
        for ((by, held), answered) in ["library", "crate"].iter().zip(answers).zip(answered) {
            *answered += usize::from(held.is_some());
            let Asked { line, word, .. } = asked;
            let place = format!("line {line}, case {}, {word} by the {by}", case.name);
            let differences = held.unwrap_or_default().0.into_iter();
            all.extend(differences.map(|difference| format!("{place}: {difference}")));
        }
    }
    all
}

fn print(counts: &Counts) {
    let all = counts.values().fold([0; 3], |all, one| [0, 1, 2].map(|i| all[i] + one[i]));
    for (word, [calls, library, own]) in counts.iter().chain([(&"all", &all)]) {
        println!("{word}: {calls} calls, {library} answers of the library, {own} of the crate");
    }
    let without = counts.values().filter(|[_, library, own]| library + own == 0);
    println!("left out, as neither has them: {}", without.map(|[calls, ..]| calls).sum::<usize>());
}

#[test]
fn conformance() {
    let ours = concat!(env!("CARGO_MANIFEST_DIR"), "/../../docs/conformance.txt");
    let path = std::env::var("HOPSICKLE_LIST").unwrap_or(ours.to_string());
    let text = std::fs::read_to_string(&path).unwrap_or_else(|error| panic!("{path}: {error}"));
    let cases = list::cases(&text);
    assert!(!cases.is_empty(), "{path} has no cases");
    let mut counts = Counts::new();
    let differences: Vec<String> =
        cases.iter().flat_map(|case| carry_out(case, &mut counts)).collect();
    differences.iter().for_each(|difference| println!("{difference}"));
    println!("{} cases", cases.len());
    print(&counts);
    assert!(differences.is_empty(), "{} differences from {path}", differences.len());
}
