//! The layout of descriptions in requests and answers (README.md has the table), and the way
//! between them and the original's records.

use crate::types::{EthernetHeader, Quality, Sample as Value, SavAsdu, SavPdu};

#[derive(Clone, Debug, Default, PartialEq)]
pub struct Header {
    pub destination: [u8; 6],
    pub source: [u8; 6],
    /// 0 untagged, 1 tagged; 2 only TPID, 3 only TCI (which only the original can describe).
    pub vlan: u8,
    pub tpid: [u8; 2],
    pub tci: [u8; 2],
    pub ether_type: [u8; 2],
    pub appid: [u8; 2],
    pub length: [u8; 2],
}

#[derive(Clone, Debug, Default, PartialEq)]
pub struct Pdu {
    pub simulation: bool,
    pub no_asdu: u16,
    pub security: Option<Vec<u8>>,
    pub asdus: Vec<Asdu>,
}

#[derive(Clone, Debug, Default, PartialEq)]
pub struct Asdu {
    pub sv_id: Vec<u8>,
    pub dat_set: Option<Vec<u8>>,
    pub smp_cnt: u16,
    pub conf_rev: u32,
    pub refr_tm: Option<[u8; 8]>,
    pub smp_synch: u8,
    pub smp_rate: Option<u16>,
    pub smp_mod: Option<u16>,
    pub gm_identity: Option<[u8; 8]>,
    pub samples: Vec<Sample>,
}

/// Bits of an f32 value, bits of its f32 scale factor, and the quality word. Where a sample goes
/// into a frame (frame.rs), `value` is the count.
#[derive(Clone, Copy, Debug, Default, PartialEq)]
pub struct Sample {
    pub value: u32,
    pub scale: u32,
    pub quality: u32,
}

// ---- writing the layout: `None` where a length has more than two octets ----

fn put_octets(out: &mut Vec<u8>, octets: &[u8]) -> Option<()> {
    out.extend(u16::try_from(octets.len()).ok()?.to_be_bytes());
    out.extend(octets);
    Some(())
}

fn put_option(out: &mut Vec<u8>, octets: Option<&[u8]>) -> Option<()> {
    out.push(u8::from(octets.is_some()));
    put_octets(out, octets.unwrap_or(&[]))
}

fn put_fixed<const N: usize>(out: &mut Vec<u8>, octets: Option<[u8; N]>) {
    out.push(u8::from(octets.is_some()));
    out.extend(octets.unwrap_or([0; N]));
}

impl Header {
    pub fn put(&self, out: &mut Vec<u8>) {
        out.extend(self.destination);
        out.extend(self.source);
        out.push(self.vlan);
        for field in [self.tpid, self.tci, self.ether_type, self.appid, self.length] {
            out.extend(field);
        }
    }
}

impl Pdu {
    pub fn put(&self, out: &mut Vec<u8>) -> Option<()> {
        out.push(u8::from(self.simulation));
        out.extend(self.no_asdu.to_be_bytes());
        put_option(out, self.security.as_deref())?;
        out.extend(u16::try_from(self.asdus.len()).ok()?.to_be_bytes());
        self.asdus.iter().try_for_each(|asdu| asdu.put(out))
    }
}

impl Asdu {
    fn put(&self, out: &mut Vec<u8>) -> Option<()> {
        put_octets(out, &self.sv_id)?;
        put_option(out, self.dat_set.as_deref())?;
        out.extend(self.smp_cnt.to_be_bytes());
        out.extend(self.conf_rev.to_be_bytes());
        put_fixed(out, self.refr_tm);
        out.push(self.smp_synch);
        put_fixed(out, self.smp_rate.map(u16::to_be_bytes));
        put_fixed(out, self.smp_mod.map(u16::to_be_bytes));
        put_fixed(out, self.gm_identity);
        out.push(u8::try_from(self.samples.len()).ok()?);
        for sample in &self.samples {
            for field in [sample.value, sample.scale, sample.quality] {
                out.extend(field.to_be_bytes());
            }
        }
        Some(())
    }
}

/// A description as a request has it.
pub fn described(header: &Header, pdu: &Pdu) -> Vec<u8> {
    let mut out = vec![];
    header.put(&mut out);
    pdu.put(&mut out).expect("a short description");
    out
}

/// A number of channels with their scale factors, then octets, as a request has them.
pub fn asked(scales: &[f32], octets: &[u8]) -> Vec<u8> {
    let mut out = vec![scales.len() as u8];
    for scale in scales {
        out.extend(scale.to_bits().to_be_bytes());
    }
    out.extend(octets);
    out
}

// ---- reading the layout: `None` where the octets end too soon or a mark is none ----

pub struct Cursor<'a>(pub &'a [u8]);

impl<'a> Cursor<'a> {
    pub fn octets(&mut self, length: usize) -> Option<&'a [u8]> {
        let (head, tail) = self.0.split_at_checked(length)?;
        self.0 = tail;
        Some(head)
    }

    pub fn fixed<const N: usize>(&mut self) -> Option<[u8; N]> {
        self.octets(N)?.try_into().ok()
    }

    pub fn u8(&mut self) -> Option<u8> {
        Some(self.fixed::<1>()?[0])
    }

    pub fn u16(&mut self) -> Option<u16> {
        Some(u16::from_be_bytes(self.fixed()?))
    }

    pub fn u32(&mut self) -> Option<u32> {
        Some(u32::from_be_bytes(self.fixed()?))
    }

    pub fn u64(&mut self) -> Option<u64> {
        Some(u64::from_be_bytes(self.fixed()?))
    }

    pub fn end(&self) -> Option<()> {
        self.0.is_empty().then_some(())
    }

    pub fn mark(&mut self) -> Option<bool> {
        match self.u8()? {
            0 => Some(false),
            1 => Some(true),
            _ => None,
        }
    }

    fn text(&mut self) -> Option<Vec<u8>> {
        let length = self.u16()?;
        Some(self.octets(length.into())?.to_vec())
    }

    fn option_text(&mut self) -> Option<Option<Vec<u8>>> {
        let present = self.mark()?;
        let text = self.text()?;
        Some(present.then_some(text))
    }

    fn option_fixed<const N: usize>(&mut self) -> Option<Option<[u8; N]>> {
        let present = self.mark()?;
        let octets = self.fixed()?;
        Some(present.then_some(octets))
    }

    pub fn header(&mut self) -> Option<Header> {
        Some(Header {
            destination: self.fixed()?,
            source: self.fixed()?,
            vlan: self.u8().filter(|&mark| mark < 4)?,
            tpid: self.fixed()?,
            tci: self.fixed()?,
            ether_type: self.fixed()?,
            appid: self.fixed()?,
            length: self.fixed()?,
        })
    }

    pub fn pdu(&mut self) -> Option<Pdu> {
        let mut pdu = Pdu {
            simulation: self.mark()?,
            no_asdu: self.u16()?,
            security: self.option_text()?,
            asdus: vec![],
        };
        for _ in 0..self.u16()? {
            pdu.asdus.push(self.asdu()?);
        }
        Some(pdu)
    }

    fn asdu(&mut self) -> Option<Asdu> {
        let mut asdu = Asdu {
            sv_id: self.text()?,
            dat_set: self.option_text()?,
            smp_cnt: self.u16()?,
            conf_rev: self.u32()?,
            refr_tm: self.option_fixed()?,
            smp_synch: self.u8()?,
            smp_rate: self.option_fixed()?.map(u16::from_be_bytes),
            smp_mod: self.option_fixed()?.map(u16::from_be_bytes),
            gm_identity: self.option_fixed()?,
            samples: vec![],
        };
        for _ in 0..self.u8()? {
            asdu.samples.push(Sample {
                value: self.u32()?,
                scale: self.u32()?,
                quality: self.u32()?,
            });
        }
        Some(asdu)
    }
}

// ---- to and from the original's records ----

impl Header {
    pub fn to_original(&self) -> EthernetHeader {
        EthernetHeader {
            dst_addr: self.destination,
            src_addr: self.source,
            tpid: matches!(self.vlan, 1 | 2).then_some(self.tpid),
            tci: matches!(self.vlan, 1 | 3).then_some(self.tci),
            ether_type: self.ether_type,
            appid: self.appid,
            length: self.length,
        }
    }

    pub fn from_original(header: &EthernetHeader) -> Header {
        Header {
            destination: header.dst_addr,
            source: header.src_addr,
            vlan: match (header.tpid, header.tci) {
                (None, None) => 0,
                (Some(_), Some(_)) => 1,
                (Some(_), None) => 2,
                (None, Some(_)) => 3,
            },
            tpid: header.tpid.unwrap_or_default(),
            tci: header.tci.unwrap_or_default(),
            ether_type: header.ether_type,
            appid: header.appid,
            length: header.length,
        }
    }
}

impl Pdu {
    /// `None` where a text isn't UTF-8.
    pub fn to_original(&self) -> Option<SavPdu> {
        Some(SavPdu {
            sim: self.simulation,
            no_asdu: self.no_asdu,
            security: self.security.clone(),
            sav_asdu: self.asdus.iter().map(Asdu::to_original).collect::<Option<_>>()?,
        })
    }

    pub fn from_original(pdu: &SavPdu) -> Pdu {
        Pdu {
            simulation: pdu.sim,
            no_asdu: pdu.no_asdu,
            security: pdu.security.clone(),
            asdus: pdu.sav_asdu.iter().map(Asdu::from_original).collect(),
        }
    }
}

impl Asdu {
    fn to_original(&self) -> Option<SavAsdu> {
        let text = |octets: &Vec<u8>| String::from_utf8(octets.clone()).ok();
        Some(SavAsdu {
            msv_id: text(&self.sv_id)?,
            dat_set: match &self.dat_set {
                Some(octets) => Some(text(octets)?),
                None => None,
            },
            smp_cnt: self.smp_cnt,
            conf_rev: self.conf_rev,
            refr_tm: self.refr_tm,
            smp_synch: self.smp_synch,
            smp_rate: self.smp_rate,
            smp_mod: self.smp_mod,
            gm_identity: self.gm_identity,
            all_data: self.samples.iter().copied().map(Sample::to_original).collect(),
        })
    }

    fn from_original(asdu: &SavAsdu) -> Asdu {
        Asdu {
            sv_id: asdu.msv_id.clone().into_bytes(),
            dat_set: asdu.dat_set.clone().map(String::into_bytes),
            smp_cnt: asdu.smp_cnt,
            conf_rev: asdu.conf_rev,
            refr_tm: asdu.refr_tm,
            smp_synch: asdu.smp_synch,
            smp_rate: asdu.smp_rate,
            smp_mod: asdu.smp_mod,
            gm_identity: asdu.gm_identity,
            samples: asdu.all_data.iter().map(Sample::from_original).collect(),
        }
    }
}

impl Sample {
    pub fn to_original(self) -> Value {
        Value::new(
            f32::from_bits(self.value),
            Quality::from_sv(self.quality),
            f32::from_bits(self.scale),
        )
    }

    fn from_original(sample: &Value) -> Sample {
        Sample {
            value: bits(sample.value),
            scale: sample.scale_factor.to_bits(),
            quality: sample.quality.to_sv(),
        }
    }
}

/// The bits of a value worked out; every NaN is 7fc00000.
pub fn bits(value: f32) -> u32 {
    if value.is_nan() {
        0x7fc0_0000
    } else {
        value.to_bits()
    }
}
