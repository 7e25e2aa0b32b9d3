//! A frame in the arrays that cross to the library, between the octets and the records.

use crate::data_sets::data_set;
use crate::slices;
use crate::sys::*;
use crate::types::{
    EthernetHeader, Quality, Sample, SavAsdu, SavDataSetConfig, SavPdu, SavValueConfig,
};
use crate::{DataSets, Form, Refusal};
use std::cell::RefCell;
use std::ops::Range;

// Room for one ASDU and one channel more than there can be, so that the library finds too many of
// them (9, 8) and not too little room (7).
const ASDUS: usize = MAX_ASDUS + 1;
const CHANNELS: usize = MAX_CHANNELS + 1;
const SAMPLES: usize = ASDUS * CHANNELS;
const NUMBERS: usize = HEAD_NUMBERS + ASDUS * ASDU_NUMBERS;
const OCTETS: usize = HEAD_OCTETS + ASDUS * ASDU_OCTETS;

/// A frame that was read: the records of its header and PDU, and what these can't hold, the octets
/// of its texts and the counts of its samples. One `Frame` serves for any number of readings.
#[derive(Clone)]
pub struct Frame {
    channels: usize,
    scales: [f32; CHANNELS],
    numbers: [u32; NUMBERS],
    octets: [u8; OCTETS],
    counts: [i32; SAMPLES],
    values: [f32; SAMPLES],
    qualities: [u32; SAMPLES],
}

impl Default for Frame {
    /// A frame without ASDUs.
    fn default() -> Self {
        Frame::EMPTY
    }
}

impl Frame {
    const EMPTY: Frame = Frame {
        channels: 0,
        scales: [0.0; CHANNELS],
        numbers: [0; NUMBERS],
        octets: [0; OCTETS],
        counts: [0; SAMPLES],
        values: [0.0; SAMPLES],
        qualities: [0; SAMPLES],
    };
}

/// A frame in the arrays, and one in octets.
type Scratch = (Frame, [u8; MAX_FRAME]);

thread_local! {
    static SCRATCH: RefCell<Scratch> = const { RefCell::new((Frame::EMPTY, [0; MAX_FRAME])) };
}

/// Lends the thread's own arrays, with whatever the last call left in them: clearing them would take
/// as long as reading a small frame.
pub(crate) fn with_scratch<T>(work: impl FnOnce(&mut Scratch) -> T) -> T {
    SCRATCH.with(|scratch| match scratch.try_borrow_mut() {
        Ok(mut scratch) => work(&mut scratch),
        Err(_) => work(&mut (Frame::EMPTY, [0; MAX_FRAME])),
    })
}

// ---- reading

/// How a frame is read, or, from a place on, its PDU.
enum Reading {
    Ordinary,
    Checked,
    Strict { fixed: bool },
    Granted { mask: u32 },
    Pdu { at: usize },
}

impl Frame {
    /// Reads a frame of this data set the ordinary way. A refusal leaves what was read before.
    pub fn read(&mut self, frame: &[u8], config: &SavDataSetConfig) -> Result<(), Refusal> {
        self.read_as(Reading::Ordinary, frame, config)
    }

    /// Reads a frame of this data set the ordinary way, and checks that the data set matches it. See
    /// [`crate::read_checked`].
    pub fn read_checked(&mut self, frame: &[u8], config: &SavDataSetConfig) -> Result<(), Refusal> {
        self.read_as(Reading::Checked, frame, config)
    }

    /// Reads a frame of this data set strictly: only what the writer writes in this form is
    /// accepted.
    pub fn read_strict(
        &mut self,
        frame: &[u8],
        config: &SavDataSetConfig,
        form: Form,
    ) -> Result<(), Refusal> {
        self.read_as(Reading::Strict { fixed: form.is_fixed() }, frame, config)
    }

    /// Reads a frame of this data set, and of its channels those alone whose bit of `mask` is set; bits
    /// beyond the data set do nothing. What was read is then a frame of the shown channels: their
    /// number, counts, values, quality words and scale factors, in their order. See
    /// [`crate::read_granted`].
    pub fn read_granted(
        &mut self,
        frame: &[u8],
        config: &SavDataSetConfig,
        mask: u32,
    ) -> Result<(), Refusal> {
        self.fill(Reading::Granted { mask }, frame, config.config.len())?;
        let shown = config.config.iter().enumerate().filter(|(i, _)| mask >> i & 1 == 1);
        self.scale(shown.map(|(_, channel)| channel))
    }

    /// Reads a frame the ordinary way with the data set that is held under its first ASDU's confRev,
    /// which is answered. See [`crate::read_by_sets`].
    pub fn read_by_sets(
        &mut self,
        frame: &[u8],
        sets: &DataSets,
    ) -> Result<SavDataSetConfig, Refusal> {
        let (mut channels, mut scales, mut place) = (0, [0.0; MAX_CHANNELS], 0);
        let number = read_by_sets(
            frame,
            &sets.numbers,
            &sets.scales,
            &mut channels,
            &mut scales,
            &mut self.numbers,
            &mut self.octets,
            &mut self.counts,
            &mut self.qualities,
            &mut place,
        );
        Refusal::check(number, place)?;
        let set = data_set(&scales[..channels]);
        self.scale(set.config.iter())?;
        Ok(set)
    }

    // This and `fill` are inlined, so that each reading has its own call and none a choice to make.
    #[inline(always)]
    fn read_as(
        &mut self,
        reading: Reading,
        frame: &[u8],
        data: &SavDataSetConfig,
    ) -> Result<(), Refusal> {
        self.fill(reading, frame, data.config.len())?;
        self.scale(data.config.iter())
    }

    /// Reads a frame of so many channels into the arrays.
    #[inline(always)]
    fn fill(&mut self, reading: Reading, frame: &[u8], channels: usize) -> Result<(), Refusal> {
        let Frame { numbers: n, octets: o, counts: c, qualities: q, .. } = self;
        let mut place = 0;
        let p = &mut place;
        let number = match reading {
            Reading::Ordinary => slices::read(frame, channels, n, o, c, q, p),
            Reading::Checked => slices::read_checked(frame, channels, n, o, c, q, p),
            Reading::Strict { fixed } => slices::read_strict(frame, channels, fixed, n, o, c, q, p),
            Reading::Granted { mask } => slices::read_granted(frame, channels, mask, n, o, c, q, p),
            Reading::Pdu { at } => slices::decode(frame, at, channels, n, o, c, q, p),
        };
        Refusal::check(number, place)
    }

    /// Reads a PDU from a place on.
    pub(crate) fn decode(
        &mut self,
        buffer: &[u8],
        at: usize,
        data: &SavDataSetConfig,
    ) -> Result<(), Refusal> {
        self.read_as(Reading::Pdu { at }, buffer, data)
    }

    /// The values of the counts that were read, which are those of these channels.
    fn scale<'a>(
        &mut self,
        channels: impl Iterator<Item = &'a SavValueConfig>,
    ) -> Result<(), Refusal> {
        self.channels = 0;
        for (scale, channel) in self.scales.iter_mut().zip(channels) {
            *scale = channel.scale_factor;
            self.channels += 1;
        }
        let no_asdu = self.no_asdu() as u16;
        let scales = &self.scales[..self.channels];
        let number = slices::values(scales, no_asdu, &self.counts, &mut self.values, &mut 0);
        Refusal::check(number, 0)
    }
}

// ---- what was read

impl Frame {
    /// The number of ASDUs.
    pub fn no_asdu(&self) -> usize {
        self.numbers[NO_ASDU] as usize
    }

    /// The number of channels of each ASDU; after granted reading, of those that are shown.
    pub fn channels(&self) -> usize {
        self.channels
    }

    /// The octets of svID of ASDU `i`, as they stand in the frame; `None` where there is no such
    /// ASDU.
    pub fn sv_id(&self, i: usize) -> Option<&[u8]> {
        let (numbers, octets) = self.asdu_at(i)?;
        octets[SV_ID_OCTETS..].get(..numbers[SV_ID_LENGTH] as usize)
    }

    /// The octets of datSet of ASDU `i`; `None` where there is none.
    pub fn dat_set(&self, i: usize) -> Option<&[u8]> {
        let (numbers, octets) = self.asdu_at(i)?;
        let octets = octets[DAT_SET_OCTETS..].get(..numbers[DAT_SET_LENGTH] as usize)?;
        (numbers[DAT_SET] == 1).then_some(octets)
    }

    /// The octets of security; `None` where there are none.
    pub fn security(&self) -> Option<&[u8]> {
        let octets =
            self.octets[SECURITY_OCTETS..].get(..self.numbers[SECURITY_LENGTH] as usize)?;
        (self.numbers[SECURITY] == 1).then_some(octets)
    }

    /// The counts, ASDU by ASDU and channel by channel.
    pub fn counts(&self) -> &[i32] {
        &self.counts[self.samples()]
    }

    /// The counts, each times the scale factor of its channel. A count from −4,194,303 to 4,194,303
    /// whose scale factor has a magnitude from 2^−30 to 2^30 comes back from its value by
    /// [`encode_values`](crate::encode_values) with the same scale factor; that is proved of the
    /// calls underneath (docs/DEFINITION.md, "Scaled and back without loss"). Past these bounds a
    /// count may be lost.
    pub fn values(&self) -> &[f32] {
        &self.values[self.samples()]
    }

    /// The quality words.
    pub fn qualities(&self) -> &[u32] {
        &self.qualities[self.samples()]
    }

    pub fn header(&self) -> EthernetHeader {
        header_of(&self.numbers, &self.octets)
    }

    pub fn pdu(&self) -> SavPdu {
        SavPdu {
            sim: self.numbers[SIMULATION] == 1,
            no_asdu: self.no_asdu() as u16,
            security: self.security().map(<[u8]>::to_vec),
            sav_asdu: (0..self.no_asdu()).map(|i| self.asdu(i)).collect(),
        }
    }

    fn samples(&self) -> Range<usize> {
        0..self.no_asdu() * self.channels
    }

    fn asdu_at(&self, i: usize) -> Option<(&[u32], &[u8])> {
        let numbers = self.numbers[HEAD_NUMBERS..].chunks_exact(ASDU_NUMBERS);
        let octets = self.octets[HEAD_OCTETS..].chunks_exact(ASDU_OCTETS);
        numbers.zip(octets).take(self.no_asdu()).nth(i)
    }

    fn asdu(&self, i: usize) -> SavAsdu {
        let Some((numbers, octets)) = self.asdu_at(i) else {
            return SavAsdu::default();
        };
        let text = |octets| String::from_utf8_lossy(octets).into_owned();
        let eight = |mark: usize, at: usize| (numbers[mark] == 1).then(|| array(octets, at));
        let number = |mark: usize, at: usize| (numbers[mark] == 1).then_some(numbers[at] as u16);
        let own = i * self.channels..(i + 1) * self.channels;
        let samples = self.values[own.clone()].iter().zip(&self.qualities[own]).zip(&self.scales);
        SavAsdu {
            msv_id: text(self.sv_id(i).unwrap_or_default()),
            dat_set: self.dat_set(i).map(text),
            smp_cnt: numbers[SMP_CNT] as u16,
            conf_rev: numbers[CONF_REV],
            refr_tm: eight(REFR_TM, REFR_TM_OCTETS),
            smp_synch: numbers[SMP_SYNCH] as u8,
            smp_rate: number(SMP_RATE, SMP_RATE_VALUE),
            all_data: samples
                .map(|((value, word), scale)| Sample::new(*value, Quality::from_sv(*word), *scale))
                .collect(),
            smp_mod: number(SMP_MOD, SMP_MOD_VALUE),
            gm_identity: eight(GM_IDENTITY, GM_IDENTITY_OCTETS),
        }
    }
}

/// The octets from a place on; zeros where there are none.
fn array<const N: usize>(octets: &[u8], at: usize) -> [u8; N] {
    octets.get(at..at + N).and_then(|octets| octets.try_into().ok()).unwrap_or([0; N])
}

/// The header of the first `HEADER_NUMBERS` numbers and the first `HEADER_OCTETS` octets.
pub(crate) fn header_of(numbers: &[u32], octets: &[u8]) -> EthernetHeader {
    let two = |at: usize| (numbers[at] as u16).to_be_bytes();
    let tagged = numbers[TAGGED] == 1;
    EthernetHeader {
        dst_addr: array(octets, DST_ADDR),
        src_addr: array(octets, SRC_ADDR),
        tpid: tagged.then(|| two(TPID)),
        tci: tagged.then(|| two(TCI)),
        ether_type: two(ETHER_TYPE),
        appid: two(APPID),
        length: two(LENGTH),
    }
}

// ---- writing

impl Frame {
    /// Puts the records into the arrays, with the scale factors of the first ASDU. Refused as 9 what
    /// no description can say: half a VLAN tag, noASDU other than the number of ASDUs, and numbers
    /// of samples that differ.
    pub(crate) fn describe(
        &mut self,
        header: &EthernetHeader,
        pdu: &SavPdu,
    ) -> Result<(), Refusal> {
        let first = pdu.sav_asdu.first().map_or(&[][..], |asdu| &asdu.all_data);
        if header.tpid.is_some() != header.tci.is_some()
            || usize::from(pdu.no_asdu) != pdu.sav_asdu.len()
            || pdu.sav_asdu.iter().any(|asdu| asdu.all_data.len() != first.len())
        {
            return Err(Refusal { number: Refusal::BAD_DESCRIPTION, place: 0 });
        }
        self.channels = first.len().min(CHANNELS);
        for (scale, sample) in self.scales.iter_mut().zip(first) {
            *scale = sample.scale_factor;
        }
        let two = |octets: [u8; 2]| u32::from(u16::from_be_bytes(octets));
        let numbers = &mut self.numbers;
        numbers[TAGGED] = u32::from(header.tpid.is_some());
        numbers[TPID] = two(header.tpid.unwrap_or_default());
        numbers[TCI] = two(header.tci.unwrap_or_default());
        numbers[ETHER_TYPE] = two(header.ether_type);
        numbers[APPID] = two(header.appid);
        numbers[LENGTH] = 0;
        numbers[SIMULATION] = u32::from(pdu.sim);
        numbers[SECURITY] = u32::from(pdu.security.is_some());
        let security = pdu.security.as_deref().unwrap_or_default();
        let length = hold(&mut self.octets[SECURITY_OCTETS..][..MAX_SECURITY], security);
        numbers[SECURITY_LENGTH] = length;
        numbers[NO_ASDU] = pdu.sav_asdu.len().min(ASDUS) as u32;
        hold(&mut self.octets[DST_ADDR..], &header.dst_addr);
        hold(&mut self.octets[SRC_ADDR..], &header.src_addr);

        let numbers = self.numbers[HEAD_NUMBERS..].chunks_exact_mut(ASDU_NUMBERS);
        let octets = self.octets[HEAD_OCTETS..].chunks_exact_mut(ASDU_OCTETS);
        for ((asdu, numbers), octets) in pdu.sav_asdu.iter().zip(numbers).zip(octets) {
            describe_asdu(asdu, numbers, octets);
        }
        let channels = self.channels;
        let samples = pdu.sav_asdu.iter().flat_map(|asdu| asdu.all_data.iter().take(channels));
        for ((sample, value), word) in samples.zip(&mut self.values).zip(&mut self.qualities) {
            *value = sample.value;
            *word = sample.quality.to_sv();
        }
        Ok(())
    }

    /// Writes the frame of what was read or described, with these counts: how many octets.
    pub(crate) fn write_counts(
        &self,
        counts: &[i32],
        form: Form,
        frame: &mut [u8],
    ) -> Result<usize, Refusal> {
        let Frame { channels, numbers: n, octets: o, qualities: q, .. } = self;
        let (fixed, mut size) = (form.is_fixed(), 0);
        let number = slices::write(n, o, *channels, fixed, counts, q, frame, &mut size);
        Refusal::check(number, 0).map(|()| size)
    }

    /// Writes the frame of what was read again: how many octets. Equal to what was read, where that
    /// was strictly and in the same form.
    pub fn write(&self, form: Form, frame: &mut [u8]) -> Result<usize, Refusal> {
        self.write_counts(&self.counts, form, frame)
    }

    /// Writes the frame of what was described, with its values.
    pub(crate) fn write_values(&self, form: Form, frame: &mut [u8]) -> Result<usize, Refusal> {
        let Frame { numbers: n, octets: o, values, qualities: q, .. } = self;
        let (scales, fixed, mut size) = (&self.scales[..self.channels], form.is_fixed(), 0);
        let number = slices::write_values(n, o, scales, fixed, values, q, frame, &mut size);
        Refusal::check(number, 0).map(|()| size)
    }

    /// How many octets the writers write.
    pub(crate) fn size(&self, form: Form) -> Result<usize, Refusal> {
        let Frame { channels, numbers, octets, .. } = self;
        let mut size = 0;
        let number = slices::size(numbers, octets, *channels, form.is_fixed(), &mut size);
        Refusal::check(number, 0).map(|()| size)
    }
}

fn describe_asdu(asdu: &SavAsdu, numbers: &mut [u32], octets: &mut [u8]) {
    let dat_set = asdu.dat_set.as_deref().unwrap_or_default();
    numbers[SV_ID_LENGTH] = hold(&mut octets[SV_ID_OCTETS..][..MAX_TEXT], asdu.msv_id.as_bytes());
    numbers[DAT_SET] = u32::from(asdu.dat_set.is_some());
    numbers[DAT_SET_LENGTH] = hold(&mut octets[DAT_SET_OCTETS..][..MAX_TEXT], dat_set.as_bytes());
    numbers[SMP_CNT] = u32::from(asdu.smp_cnt);
    numbers[CONF_REV] = asdu.conf_rev;
    numbers[REFR_TM] = u32::from(asdu.refr_tm.is_some());
    numbers[SMP_SYNCH] = u32::from(asdu.smp_synch);
    numbers[SMP_RATE] = u32::from(asdu.smp_rate.is_some());
    numbers[SMP_RATE_VALUE] = u32::from(asdu.smp_rate.unwrap_or_default());
    numbers[SMP_MOD] = u32::from(asdu.smp_mod.is_some());
    numbers[SMP_MOD_VALUE] = u32::from(asdu.smp_mod.unwrap_or_default());
    numbers[GM_IDENTITY] = u32::from(asdu.gm_identity.is_some());
    hold(&mut octets[REFR_TM_OCTETS..], &asdu.refr_tm.unwrap_or_default());
    hold(&mut octets[GM_IDENTITY_OCTETS..], &asdu.gm_identity.unwrap_or_default());
}

/// Copies octets to the start of a field, as many as it holds; the answer is how many there are,
/// which the library refuses where the field doesn't hold them.
fn hold(field: &mut [u8], octets: &[u8]) -> u32 {
    for (held, octet) in field.iter_mut().zip(octets) {
        *held = *octet;
    }
    octets.len().try_into().unwrap_or(u32::MAX)
}
