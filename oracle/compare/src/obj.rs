//! Calls of the drawing as OBJ text held to the judge: number, place or length, every byte of the
//! text, and that nothing else changed. Strip, text and answer are lent at four places in guarded
//! memory, text and answer dirty.

use std::collections::BTreeMap;

use cases::drawings::SHAPES;
use cases::Rng;
use strips::{obj, Refusal};

use crate::guarded::{Lender, Place, PLACES};
use crate::tally::ByNumber;

/// What is compared: a call as the C entry has it, with the strip, the text and the answer.
pub trait Call: FnMut(&[u32], &mut [u8], &mut [u64; 8]) -> u32 {}

impl<F: FnMut(&[u32], &mut [u8], &mut [u64; 8]) -> u32> Call for F {}

/// What is lent.
#[derive(Default)]
struct Memory {
    strip: Lender<u32>,
    text: Lender<u8>,
    answer: Lender<u64>,
}

impl Memory {
    /// One call with so many bytes of text; or what it did instead of what it must. The strip is
    /// lent already.
    fn call(
        &mut self,
        place: Place,
        strip: &[u32],
        judged: Result<&[u8], Refusal>,
        room: usize,
        call: &mut impl Call,
    ) -> Result<u32, String> {
        self.text.dirty(place, room);
        self.answer.dirty(place, 8);
        let number = call(self.strip.lent(), self.text.lent(), self.answer.lent().try_into().unwrap());
        let (wanted, value, bytes, own) = match judged {
            Ok(text) => (0, text.len() as u64, text, 8),
            Err(refusal) => (refusal.number, refusal.place as u64, &[][..], 1),
        };
        let answer = self.answer.items();
        if number != wanted || answer[0] != value {
            return Err(format!("answers {number} with {}, not {wanted} with {value}", answer[0]));
        }
        if answer[1..own].iter().any(|&word| word != 0) {
            return Err(format!("the answer's other words are not 0: {answer:x?}"));
        }
        let text = &self.text.items()[..bytes.len()];
        if let Some(at) = (0..bytes.len()).find(|&at| text[at] != bytes[at]) {
            return Err(format!("byte {at}: {:?}, not {:?}", shown(text, at), shown(bytes, at)));
        }
        if !self.text.stays_from(bytes.len()) {
            return Err("a byte around the written ones changed".into());
        }
        if !self.answer.stays_from(own) {
            return Err("a word of the answer, or around it, changed that must stay".into());
        }
        if !self.strip.stays_as(strip) {
            return Err("the strip, or what lies around it, changed".into());
        }
        Ok(number)
    }
}

/// The text about a byte.
fn shown(text: &[u8], at: usize) -> String {
    String::from_utf8_lossy(&text[at.saturating_sub(12)..text.len().min(at + 12)]).into_owned()
}

/// What the accepted strips' texts held: shorts and numbers by their digits.
#[derive(Default)]
struct Texts {
    count: u64,
    empty: u64,
    bytes: u64,
    longest: usize,
    shorts: BTreeMap<usize, u64>,
    numbers: BTreeMap<usize, u64>,
}

impl Texts {
    fn of(&mut self, text: &[u8]) {
        self.count += 1;
        self.empty += text.is_empty() as u64;
        self.bytes += text.len() as u64;
        self.longest = self.longest.max(text.len());
        for line in text.split(|&byte| byte == b'\n') {
            let lengths = if line.starts_with(b"v") { &mut self.shorts } else { &mut self.numbers };
            for word in line.split(|&byte| byte == b' ').skip(1) {
                *lengths.entry(word.len()).or_default() += 1;
            }
        }
    }

    fn print(&self) {
        let Texts { count, empty, bytes, longest, shorts, numbers } = self;
        println!("texts: {count}, of them {empty} empty; {bytes} bytes together, the longest {longest}");
        println!("shorts by digits: {shorts:?}; vertex numbers by digits: {numbers:?}");
    }
}

/// By how much more than a byte a text is lent longer: a little, or up to what any strip of this
/// length can take and beyond, where a program need not know the length before it writes.
fn longer(strip: &[u32], rng: &mut Rng) -> usize {
    match rng.below(3) {
        0 => rng.below(200),
        1 => rng.below(16 * strip.len() + 1),
        _ => rng.pick(&[14, 20, 32]) * strip.len() + rng.below(64),
    }
}

/// Cases by number answered when there is room, by shape; the calls with too little stand under 2.
#[derive(Default)]
pub struct Comparison {
    numbers: ByNumber,
    texts: Texts,
    memory: Memory,
    cases: u64,
    calls: u64,
}

impl Comparison {
    /// A strip with text exactly long enough, a byte short, longer, and shorter or empty. Where
    /// there is no text, whatever is lent must not matter.
    pub fn case(&mut self, shape: &'static str, name: &str, strip: &[u32], rng: &mut Rng, call: &mut impl Call) {
        let judged = obj(strip, usize::MAX);
        let enough = judged.as_ref().map_or_else(|_| rng.below(400), Vec::len);
        let place = PLACES[self.cases as usize % PLACES.len()];
        let (more, less) = (enough + 1 + longer(strip, rng), if rng.once_in(2) { 0 } else { rng.below(enough + 1) });
        self.cases += 1;
        self.memory.strip.holding(place, strip);
        for (n, room) in [enough, enough.saturating_sub(1), more, less].into_iter().enumerate() {
            self.calls += 1;
            let judged = match &judged {
                Ok(text) if text.len() > room => Err(Refusal::new(2, 0)),
                Ok(text) => Ok(&text[..]),
                Err(refusal) => Err(*refusal),
            };
            match self.memory.call(place, strip, judged, room, call) {
                Ok(number) if n == 0 || number == 2 => self.numbers.seen(shape, number),
                Ok(_) => {}
                Err(text) => self.numbers.differs(shape, name, format!("{room} bytes lent, {place:?}: {text}")),
            }
        }
        if let Ok(text) = &judged {
            self.texts.of(text);
        }
    }

    /// So many seeded cases, from one on.
    pub fn seeded(&mut self, first: u64, count: u64, call: &mut impl Call) {
        for n in first..first + count {
            let (shape, make) = SHAPES[n as usize % SHAPES.len()];
            let mut rng = Rng::new(0x4F_424A + (n << 32));
            let strip = make(&mut rng);
            self.case(shape, &format!("case {n}"), &strip, &mut rng, call);
        }
    }

    pub fn differences(&self) -> u64 {
        self.numbers.differences
    }

    pub fn print(&self) {
        self.numbers.print("2: calls with too little");
        self.texts.print();
        println!("{} cases, {} calls, {} differences", self.cases, self.calls, self.numbers.differences);
    }
}
