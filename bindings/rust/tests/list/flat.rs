//! What a case gives, in the arrays that are lent to the functions of the library.

use super::{Asdu, Given};
use crate::arrays::Arrays;
use hopsickle::sys::*;

/// Puts elements over the first ones of an array, which gets longer where it has too few.
pub fn put<T: Clone>(array: &mut Vec<T>, elements: &[T]) {
    array.splice(..elements.len().min(array.len()), elements.iter().cloned());
}

/// Copies octets to the start of a field, as many as it holds: how many there are.
fn copy(field: &mut [u8], octets: &[u8]) -> u32 {
    field.iter_mut().zip(octets).for_each(|(held, octet)| *held = *octet);
    octets.len() as u32
}

impl Given {
    /// The arrays that are lent to a reading.
    pub fn lent(&self) -> Arrays {
        let asdus = self.asdus.len().max(MAX_ASDUS + 2);
        let (numbers, octets) = self.flat.unwrap_or((number(asdus, 0), octet(asdus, 0)));
        let (counts, qualities) = self.room.unwrap_or((MAX_SAMPLES, MAX_SAMPLES));
        Arrays::of(numbers, octets, counts, qualities)
    }

    /// The numbers and octets of the description.
    pub fn description(&self) -> (Vec<u32>, Vec<u8>) {
        let mut octets = vec![0; octet(self.asdus.len(), 0)];
        copy(&mut octets[DST_ADDR..], &self.destination);
        copy(&mut octets[SRC_ADDR..], &self.source);
        let security = self.security.as_deref().unwrap_or_default();
        let (tpid, tci) = self.vlan.unwrap_or_default();
        let mut numbers = vec![0; number(self.asdus.len(), 0)];
        for (place, number) in [
            (TAGGED, u32::from(self.vlan.is_some())),
            (TPID, tpid),
            (TCI, tci),
            (ETHER_TYPE, self.ether_type),
            (APPID, self.appid),
            (LENGTH, self.length),
            (SIMULATION, u32::from(self.simulation)),
            (SECURITY, u32::from(self.security.is_some())),
            (SECURITY_LENGTH, copy(&mut octets[SECURITY_OCTETS..HEAD_OCTETS], security)),
            (NO_ASDU, self.asdus.len() as u32),
        ] {
            numbers[place] = number;
        }
        for (i, asdu) in self.asdus.iter().enumerate() {
            asdu.describe(&mut numbers[number(i, 0)..], &mut octets[octet(i, 0)..]);
        }
        (numbers, octets)
    }

    /// The numbers and octets that are lent to a writer.
    pub fn described(&self) -> (Vec<u32>, Vec<u8>) {
        let Arrays { mut numbers, mut octets, .. } = self.lent();
        let lengths = (numbers.len(), octets.len());
        let description = self.description();
        put(&mut numbers, &description.0);
        put(&mut octets, &description.1);
        for &(place, number) in &self.numbers {
            numbers.resize(numbers.len().max(MAX_NUMBERS), 0);
            numbers[place] = number;
        }
        numbers.truncate(lengths.0);
        octets.truncate(lengths.1);
        (numbers, octets)
    }

    /// The arrays after a reading that is accepted.
    pub fn handed_back(&self) -> Arrays {
        let mut arrays = self.lent();
        let (numbers, octets) = self.description();
        put(&mut arrays.numbers, &numbers);
        put(&mut arrays.octets, &octets);
        put(&mut arrays.counts, &self.counts);
        put(&mut arrays.qualities, &self.qualities);
        arrays
    }
}

impl Asdu {
    /// Puts the ASDU into its numbers and octets, which are 0.
    fn describe(&self, numbers: &mut [u32], octets: &mut [u8]) {
        copy(&mut octets[REFR_TM_OCTETS..], &self.refr_tm.unwrap_or_default());
        copy(&mut octets[GM_IDENTITY_OCTETS..], &self.gm_identity.unwrap_or_default());
        let mut text = |at: usize, text: &[u8]| copy(&mut octets[at..][..MAX_TEXT], text);
        for (place, number) in [
            (SV_ID_LENGTH, text(SV_ID_OCTETS, &self.sv_id)),
            (DAT_SET, u32::from(self.dat_set.is_some())),
            (DAT_SET_LENGTH, text(DAT_SET_OCTETS, self.dat_set.as_deref().unwrap_or_default())),
            (SMP_CNT, self.smp_cnt),
            (CONF_REV, self.conf_rev),
            (REFR_TM, u32::from(self.refr_tm.is_some())),
            (SMP_SYNCH, self.smp_synch),
            (SMP_RATE, u32::from(self.smp_rate.is_some())),
            (SMP_RATE_VALUE, self.smp_rate.unwrap_or_default()),
            (SMP_MOD, u32::from(self.smp_mod.is_some())),
            (SMP_MOD_VALUE, self.smp_mod.unwrap_or_default()),
            (GM_IDENTITY, u32::from(self.gm_identity.is_some())),
        ] {
            numbers[place] = number;
        }
    }
}
