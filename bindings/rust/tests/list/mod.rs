//! The conformance list as its first lines describe it: its cases, each with its calls, and for each call
//! what is given and what has to be answered.

pub mod flat;

use hopsickle::sys::{ACCEPTED, MAX_NUMBERS};
use hopsickle::{Form, Refusal};
use oracle::hex::from_hex;
use std::str::{FromStr, Split};

pub struct Case {
    pub name: String,
    pub calls: Vec<Asked>,
}

/// A call with its line, its first word and what is given to it.
pub struct Asked {
    pub line: usize,
    pub word: String,
    pub given: Given,
    pub call: Call,
}

/// What has to be answered, for a call that can be refused.
pub type Answer<T> = Result<T, Refusal>;

/// A call and what has to be answered.
pub enum Call {
    Write(Form, Answer<()>),
    WriteValues(Form, Answer<()>),
    Size(Form, Answer<usize>),
    Read(Reading, Answer<()>),
    Header(Answer<usize>),
    IsSmv(bool),
    ValuesOf(u16, Answer<()>),
    ValueOf {
        count: i32,
        scale: f32,
        value: f32,
    },
    CountOf {
        value: f32,
        scale: f32,
        count: Answer<i32>,
    },
    SetsAdd(u32, Answer<usize>),
    ReadBySets(Answer<()>),
    IsGood(u32, bool),
    Nanoseconds {
        fraction: u32,
        nanoseconds: u32,
    },
    /// A call that neither the static library nor the bindings have.
    Absent,
}

/// A way of reading a frame with a number of channels, or its PDU from a start on.
pub enum Reading {
    Ordinary,
    Strict(Form),
    Checked,
    Granted(u32),
    Pdu(usize),
}

/// What the lines before a call give. Numbers of the description can lie beyond the width of their field.
#[derive(Clone, Default)]
pub struct Given {
    pub channels: usize,
    pub octets: Vec<u8>,
    pub counts: Vec<i32>,
    pub qualities: Vec<u32>,
    pub values: Vec<f32>,
    pub scales: Vec<f32>,
    pub room: Option<(usize, usize)>,
    pub buffer: Option<usize>,
    pub destination: [u8; 6],
    pub source: [u8; 6],
    /// TPID and TCI.
    pub vlan: Option<(u32, u32)>,
    pub ether_type: u32,
    pub appid: u32,
    pub length: u32,
    pub simulation: bool,
    pub security: Option<Vec<u8>>,
    pub asdus: Vec<Asdu>,
    pub flat: Option<(usize, usize)>,
    /// Places in the numbers, and the numbers there.
    pub numbers: Vec<(usize, u32)>,
}

#[derive(Clone, Default)]
pub struct Asdu {
    pub sv_id: Vec<u8>,
    pub smp_cnt: u32,
    pub conf_rev: u32,
    pub smp_synch: u32,
    // What can be absent.
    pub dat_set: Option<Vec<u8>>,
    pub refr_tm: Option<[u8; 8]>,
    pub smp_rate: Option<u32>,
    pub smp_mod: Option<u32>,
    pub gm_identity: Option<[u8; 8]>,
}

/// The words of a line that are left. An answer is `None` where the next word is missing or can't be parsed.
#[derive(Clone)]
struct Words<'a>(Split<'a, char>);

/// The cases of a list. Panics on a line that can't be parsed, with its number.
pub fn cases(text: &str) -> Vec<Case> {
    let mut cases = vec![];
    let mut given = Given::default();
    for (i, line) in text.lines().enumerate() {
        if !line.is_empty() && !line.starts_with('#') {
            let taken = take(i + 1, line, &mut cases, &mut given);
            taken.unwrap_or_else(|| panic!("line {} can't be parsed: {line}", i + 1));
        }
    }
    cases
}

/// Takes a line: a case, what is given, or a call with all that was given before.
fn take(number: usize, line: &str, cases: &mut Vec<Case>, given: &mut Given) -> Option<()> {
    let mut words = Words(line.split(' '));
    let word = words.word()?;
    if word == "case" {
        *given = Given::default();
        let name = words.all(Words::word).filter(|name| !name.is_empty())?.join(" ");
        cases.push(Case { name, calls: vec![] });
        return Some(());
    }
    let case = cases.last_mut()?;
    let mut of_call = words.clone();
    if let Some(call) = of_call.call(word) {
        let (word, given) = (word.to_string(), given.clone());
        case.calls.push(Asked { line: number, word, given, call });
        return of_call.end();
    }
    given.take(word, &mut words)?;
    words.end()
}

impl Given {
    fn take(&mut self, word: &str, words: &mut Words) -> Option<()> {
        match word {
            "channels" => self.channels = words.number()?,
            "octets" => self.octets = words.octets()?,
            "counts" => self.counts = words.all(Words::number)?,
            "qualities" => self.qualities = words.all(Words::number)?,
            "values" => self.values = words.all(Words::float)?,
            "scales" => self.scales = words.all(Words::float)?,
            "room" => self.room = Some((words.number()?, words.number()?)),
            "buffer" => self.buffer = Some(words.number()?),
            "destination" => self.destination = words.array()?,
            "source" => self.source = words.array()?,
            "vlan" => self.vlan = Some((words.hexadecimal()?, words.hexadecimal()?)),
            "ethertype" => self.ether_type = words.hexadecimal()?,
            "appid" => self.appid = words.hexadecimal()?,
            "length" => self.length = words.number()?,
            "simulation" => self.simulation = words.one_of([("on", true)])?,
            "security" => self.security = Some(words.octets()?),
            "asdu" => self.asdus.push(Asdu::default()),
            "flat" => self.flat = Some((words.number()?, words.number()?)),
            "number" => {
                let place = words.number().filter(|place| *place < MAX_NUMBERS)?;
                self.numbers.push((place, words.number()?));
            }
            _ => self.asdus.last_mut()?.take(word, words)?,
        }
        Some(())
    }
}

impl Asdu {
    fn take(&mut self, word: &str, words: &mut Words) -> Option<()> {
        match word {
            "svID" => self.sv_id = words.octets()?,
            "datSet" => self.dat_set = Some(words.octets()?),
            "smpCnt" => self.smp_cnt = words.number()?,
            "confRev" => self.conf_rev = words.number()?,
            "refrTm" => self.refr_tm = Some(words.array()?),
            "smpSynch" => self.smp_synch = words.number()?,
            "smpRate" => self.smp_rate = Some(words.number()?),
            "smpMod" => self.smp_mod = Some(words.number()?),
            "gmIdentity" => self.gm_identity = Some(words.array()?),
            _ => return None,
        }
        Some(())
    }
}

impl<'a> Words<'a> {
    fn word(&mut self) -> Option<&'a str> {
        self.0.next().filter(|word| !word.is_empty())
    }

    fn end(&mut self) -> Option<()> {
        self.0.next().is_none().then_some(())
    }

    /// A decimal number.
    fn number<T: FromStr>(&mut self) -> Option<T> {
        self.word().filter(|word| !word.starts_with('+'))?.parse().ok()
    }

    /// A hexadecimal number.
    fn hexadecimal<T: TryFrom<u32>>(&mut self) -> Option<T> {
        let word = self.word().filter(|word| !word.starts_with('+'))?;
        u32::from_str_radix(word, 16).ok()?.try_into().ok()
    }

    fn float(&mut self) -> Option<f32> {
        self.hexadecimal().map(f32::from_bits)
    }

    fn octets(&mut self) -> Option<Vec<u8>> {
        from_hex(self.word()?)
    }

    fn array<const N: usize>(&mut self) -> Option<[u8; N]> {
        self.octets()?.try_into().ok()
    }

    /// All words that are left.
    fn all<T>(&mut self, one: impl Fn(&mut Self) -> Option<T>) -> Option<Vec<T>> {
        let mut all = vec![];
        while self.0.clone().next().is_some() {
            all.push(one(self)?);
        }
        Some(all)
    }

    /// What one of these words stands for.
    fn one_of<T, const N: usize>(&mut self, words: [(&str, T); N]) -> Option<T> {
        let word = self.word()?;
        words.into_iter().find(|(one, _)| *one == word).map(|(_, of)| of)
    }

    fn form(&mut self) -> Option<Form> {
        self.one_of([("shortest", Form::Shortest), ("fixed", Form::Fixed)])
    }

    fn yes(&mut self) -> Option<bool> {
        self.one_of([("yes", true), ("no", false)])
    }

    /// Accepted, with what `accepted` takes, or refused.
    fn answer<T>(&mut self, accepted: impl Fn(&mut Self) -> Option<T>) -> Option<Answer<T>> {
        if self.one_of([("accepted", true), ("refused", false)])? {
            return accepted(self).map(Ok);
        }
        let number = self.number().filter(|number| *number != ACCEPTED)?;
        Some(Err(Refusal { number, place: self.number()? }))
    }

    /// Accepted without a number, or refused.
    fn plain(&mut self) -> Option<Answer<()>> {
        self.answer(|_| Some(()))
    }

    /// A tag, what `content` takes, and an answer.
    fn absent<T>(&mut self, content: impl Fn(&mut Self) -> Option<T>) -> Option<Call> {
        self.hexadecimal::<u8>()?;
        content(self)?;
        self.plain().map(|_| Call::Absent)
    }

    fn call(&mut self, word: &str) -> Option<Call> {
        Some(match word {
            "write" => Call::Write(self.form()?, self.plain()?),
            "write_values" => Call::WriteValues(self.form()?, self.plain()?),
            "size" => Call::Size(self.form()?, self.answer(Words::number)?),
            "read" => Call::Read(Reading::Ordinary, self.plain()?),
            "read_strict" => Call::Read(Reading::Strict(self.form()?), self.plain()?),
            "read_checked" => Call::Read(Reading::Checked, self.plain()?),
            "read_granted" => Call::Read(Reading::Granted(self.hexadecimal()?), self.plain()?),
            "decode" => Call::Read(Reading::Pdu(self.number()?), self.plain()?),
            "header" => Call::Header(self.answer(Words::number)?),
            "is_smv" => Call::IsSmv(self.yes()?),
            "values_of" => Call::ValuesOf(self.number()?, self.plain()?),
            "value_of" => {
                Call::ValueOf { count: self.number()?, scale: self.float()?, value: self.float()? }
            }
            "count_of" => Call::CountOf {
                value: self.float()?,
                scale: self.float()?,
                count: self.answer(Words::number)?,
            },
            "sets_add" => Call::SetsAdd(self.number()?, self.answer(Words::number)?),
            "read_by_sets" => Call::ReadBySets(self.plain()?),
            "tag_length" | "unsigned_integer" => self.absent(Words::number::<u64>)?,
            "octet_string" => self.absent(Words::octets)?,
            "is_good" => Call::IsGood(self.hexadecimal()?, self.yes()?),
            "nanoseconds" => {
                Call::Nanoseconds { fraction: self.number()?, nanoseconds: self.number()? }
            }
            _ => return None,
        })
    }
}
