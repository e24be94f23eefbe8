// The same rules in plain Rust, written from the pages in docs/ for speed and with no proof. It is the bar that the library's speed
// is held against, so it stays as it was measured; refusals, parities and acts are numbers in it, as they cross the C interface.
use crate::capi::{Act, Answer, End, Entry, Rates, Verdict};

const OUT_OF_RANGE: u8 = 1;
const TOO_WIDE: u8 = 2;
const FULL: u8 = 3;
const NOTHING_UNREAD: u8 = 4;
const FORMATS_DIFFER: u8 = 5;
const TOO_SHORT: u8 = 6;
const NOT_A_LEVEL: u8 = 7;

const OVERRUN: u8 = 1;
const PARITY: u8 = 2;
const FRAMING: u8 = 4;
const BREAK: u8 = 8;

const MARK: u8 = 1;

#[derive(Clone, Copy, PartialEq, Eq)]
struct Format {
    width: u32,
    address: bool,
    // 0 for none, 1 for odd, 2 for even
    parity: u8,
    stops: u32,
}

impl Format {
    fn first_stop(&self) -> usize {
        1 + self.width as usize + (self.parity != 0) as usize
    }

    fn bits(&self) -> usize {
        self.first_stop() + self.stops as usize
    }

    fn agrees(&self, other: &Format) -> bool {
        self.width == other.width && self.address == other.address && self.parity == other.parity
    }

    fn parity_bit(&self, character: u32) -> u32 {
        match self.parity {
            1 => (character.count_ones() + 1) & 1,
            _ => character.count_ones() & 1,
        }
    }

    // The bits of a frame, the start bit the least significant.
    fn frame(&self, character: u16) -> u32 {
        let character = character as u32;
        let mut above = (1 << self.stops) - 1;
        if self.parity != 0 {
            above = above << 1 | self.parity_bit(character);
        }
        (above << self.width | character) << 1
    }

    // The entry of the bits that were decided, the start bit the least significant.
    fn entry(&self, bits: u32) -> Entry {
        let character = bits >> 1 & ((1 << self.width) - 1);
        let mut above = bits >> (1 + self.width);
        let mut flags = 0;
        if self.parity != 0 {
            if above & 1 != self.parity_bit(character) {
                flags |= PARITY;
            }
            above >>= 1;
        }
        if above & 1 == 0 {
            flags |= FRAMING;
        }
        Entry {
            character: character as u16,
            flags,
        }
    }
}

struct Timing {
    format: Format,
    lengths: [u32; 13],
    samples: [u32; 36],
    sample_count: usize,
    break_length: u32,
}

impl Timing {
    fn new(end: &End) -> Result<Timing, u8> {
        if !(7..=8).contains(&end.data_bits)
            || end.address_bits > 1
            || end.parity > 2
            || !(1..=2).contains(&end.stop_bits)
            || end.divider < 3
        {
            return Err(OUT_OF_RANGE);
        }
        let format = Format {
            width: (end.data_bits + end.address_bits) as u32,
            address: end.address_bits == 1,
            parity: end.parity,
            stops: end.stop_bits as u32,
        };
        let mut lengths = [0; 13];
        for (k, length) in lengths.iter_mut().enumerate() {
            *length = end.divider as u32 + (end.modulator >> (k % 8) & 1) as u32;
        }
        let mut samples = [0; 36];
        let sample_count = 3 * (1 + format.first_stop());
        let mut start = 0;
        for (length, sample) in lengths.iter().zip(samples[..sample_count].chunks_exact_mut(3)) {
            let middle = start + length / 2;
            let distance = ((1 << length.ilog2()) / 32).max(1);
            sample.copy_from_slice(&[middle - distance, middle, middle + distance]);
            start += length;
        }
        Ok(Timing {
            format,
            lengths,
            samples,
            sample_count,
            break_length: 10 * end.divider as u32,
        })
    }
}

fn number(result: Result<(), u8>) -> u8 {
    match result {
        Ok(()) => 0,
        Err(refusal) => refusal,
    }
}

pub fn draw(end: &End, characters: &[u16], picture: &mut [u8], written: &mut usize) -> u8 {
    number(drawn(end, characters, picture).map(|size| *written = size))
}

fn drawn(end: &End, characters: &[u16], picture: &mut [u8]) -> Result<usize, u8> {
    let timing = Timing::new(end)?;
    if characters.iter().fold(0, |all, c| all | c) >> timing.format.width != 0 {
        return Err(TOO_WIDE);
    }
    let lengths = &timing.lengths[..timing.format.bits()];
    let clocks = lengths.iter().sum::<u32>() as usize;
    let size = characters.len() * clocks;
    if characters.len() > 4096 || picture.len() < size {
        return Err(TOO_SHORT);
    }
    for (character, part) in characters.iter().zip(picture.chunks_exact_mut(clocks)) {
        let mut bits = timing.format.frame(*character);
        let mut rest = part;
        for length in lengths {
            let (run, after) = rest.split_at_mut(*length as usize);
            run.fill((bits & 1) as u8);
            bits >>= 1;
            rest = after;
        }
    }
    Ok(size)
}

#[derive(Clone, Copy, PartialEq, Eq)]
enum Doing {
    Idle,
    Framing,
    Counting,
}

// A receiver without its unread entries.
struct Ear {
    timing: Timing,
    doing: Doing,
    previous: u8,
    // the clock of the frame, or the spaces counted
    clock: u32,
    // the number of the next sample, and its clock
    sample: usize,
    next: u32,
    // how many marks among the samples of the bit, and the bits decided
    marks: u32,
    bits: u32,
}

impl Ear {
    fn new(timing: Timing) -> Ear {
        Ear {
            timing,
            doing: Doing::Idle,
            previous: MARK,
            clock: 0,
            sample: 0,
            next: 0,
            marks: 0,
            bits: 0,
        }
    }

    #[inline]
    fn clock(&mut self, level: u8) -> Option<Entry> {
        let previous = std::mem::replace(&mut self.previous, level);
        match self.doing {
            Doing::Framing => {
                self.clock += 1;
                if self.clock == self.next {
                    return self.take(level);
                }
                None
            }
            _ if previous > level => {
                self.doing = Doing::Framing;
                self.clock = 0;
                self.sample = 0;
                self.next = self.timing.samples[0];
                self.marks = 0;
                self.bits = 0;
                if self.next == 0 {
                    return self.take(level);
                }
                None
            }
            Doing::Idle => None,
            Doing::Counting => {
                if level == MARK {
                    self.doing = Doing::Idle;
                    return None;
                }
                self.clock += 1;
                if self.clock < self.timing.break_length {
                    return None;
                }
                self.doing = Doing::Idle;
                Some(Entry {
                    character: 0,
                    flags: BREAK,
                })
            }
        }
    }

    // The samples that fall on this clock.
    fn take(&mut self, level: u8) -> Option<Entry> {
        while self.next == self.clock {
            self.marks += level as u32;
            self.sample += 1;
            if self.sample % 3 == 0 {
                let bit = (self.marks >= 2) as u32;
                self.marks = 0;
                self.bits |= bit << (self.sample / 3 - 1);
                if self.sample == 3 && bit == 1 {
                    self.doing = Doing::Idle;
                    return None;
                }
                if self.sample == self.timing.sample_count {
                    let entry = self.timing.format.entry(self.bits);
                    self.clock = 0;
                    self.doing = if entry.flags & FRAMING == 0 {
                        Doing::Idle
                    } else {
                        Doing::Counting
                    };
                    return Some(entry);
                }
            }
            self.next = self.timing.samples[self.sample];
        }
        None
    }
}

pub fn scan(end: &End, picture: &[u8], entries: &mut [Entry], found: &mut usize) -> u8 {
    number(scanned(end, picture, entries, by_clock).map(|count| *found = count))
}

// The same, with nothing looked at between the samples of a frame.
pub fn scan_samples(end: &End, picture: &[u8], entries: &mut [Entry], found: &mut usize) -> u8 {
    number(scanned(end, picture, entries, by_sample).map(|count| *found = count))
}

fn scanned(
    end: &End,
    picture: &[u8],
    entries: &mut [Entry],
    heard: fn(Timing, &[u8]) -> Vec<Entry>,
) -> Result<usize, u8> {
    let timing = Timing::new(end)?;
    if picture.iter().fold(0, |all, byte| all | byte) > 1 {
        return Err(NOT_A_LEVEL);
    }
    let list = heard(timing, picture);
    if entries.len() < list.len() {
        return Err(TOO_SHORT);
    }
    entries[..list.len()].copy_from_slice(&list);
    Ok(list.len())
}

// Clock by clock, as a receiver on a line hears it.
fn by_clock(timing: Timing, picture: &[u8]) -> Vec<Entry> {
    let mut ear = Ear::new(timing);
    let mut list = Vec::new();
    for level in picture {
        list.extend(ear.clock(*level));
    }
    list
}

// From edge to edge, with a look at the samples only.
fn by_sample(timing: Timing, picture: &[u8]) -> Vec<Entry> {
    let samples = &timing.samples[..timing.sample_count];
    let last = samples[samples.len() - 1] as usize;
    let mut list = Vec::new();
    let mut at = 0;
    let mut previous = MARK;
    loop {
        // the first space after a mark
        if previous != MARK {
            match picture[at..].iter().position(|level| *level == MARK) {
                Some(marks) => at += marks,
                None => return list,
            }
        }
        match picture[at..].iter().position(|level| *level != MARK) {
            Some(spaces) => at += spaces,
            None => return list,
        }
        let voted = |k: usize| -> Option<bool> {
            let mut marks = 0;
            for sample in &samples[3 * k..3 * k + 3] {
                marks += *picture.get(at + *sample as usize)?;
            }
            Some(marks >= 2)
        };
        match voted(0) {
            None => return list,
            Some(true) => {
                at += samples[2] as usize;
                previous = picture[at];
                at += 1;
                continue;
            }
            Some(false) => {}
        }
        let mut bits = 0;
        for k in 1..samples.len() / 3 {
            match voted(k) {
                None => return list,
                Some(bit) => bits |= (bit as u32) << k,
            }
        }
        let entry = timing.format.entry(bits);
        list.push(entry);
        at += last;
        previous = picture[at];
        at += 1;
        if entry.flags & FRAMING != 0 {
            // spaces count only where the last clock of the frame is a space too
            if previous == MARK && picture.get(at) == Some(&0) {
                continue;
            }
            let limit = timing.break_length as usize;
            let rest = &picture[at..picture.len().min(at + limit)];
            match rest.iter().position(|level| *level == MARK) {
                Some(marks) => {
                    at += marks;
                    previous = MARK;
                }
                None => {
                    if rest.len() < limit {
                        return list;
                    }
                    list.push(Entry {
                        character: 0,
                        flags: BREAK,
                    });
                    at += limit;
                    previous = 0;
                }
            }
        }
    }
}

pub fn fit(sender: &End, receiver: &End, rates: Rates, verdict: &mut Verdict) -> u8 {
    number(fitted(sender, receiver, rates).map(|found| *verdict = found))
}

fn fitted(sender: &End, receiver: &End, rates: Rates) -> Result<Verdict, u8> {
    let sender = Timing::new(sender)?;
    let receiver = Timing::new(receiver)?;
    let range = 1..=16_777_216;
    if !range.contains(&rates.send) || !range.contains(&rates.receive) {
        return Err(OUT_OF_RANGE);
    }
    if !sender.format.agrees(&receiver.format) {
        return Err(FORMATS_DIFFER);
    }
    let (a, b) = (rates.send as u64, rates.receive as u64);
    let mut begin = 0;
    let samples = receiver.samples[..receiver.sample_count].chunks_exact(3);
    for (bit, (sample, length)) in samples.zip(&sender.lengths).enumerate() {
        let end = begin + *length as u64;
        if begin * b > sample[0] as u64 * a {
            return Ok(Verdict { verdict: 1, bit });
        }
        if (sample[2] as u64 + 1) * a > end * b {
            return Ok(Verdict { verdict: 2, bit });
        }
        begin = end;
    }
    Ok(Verdict { verdict: 0, bit: 0 })
}

// A queue in an array.
struct Ring<T, const N: usize> {
    places: [T; N],
    first: usize,
    count: usize,
}

impl<T: Copy, const N: usize> Ring<T, N> {
    fn new(filler: T) -> Ring<T, N> {
        Ring {
            places: [filler; N],
            first: 0,
            count: 0,
        }
    }

    fn wrapped(place: usize) -> usize {
        if place >= N { place - N } else { place }
    }

    fn push(&mut self, item: T) {
        self.places[Self::wrapped(self.first + self.count)] = item;
        self.count += 1;
    }

    fn newest(&mut self) -> &mut T {
        &mut self.places[Self::wrapped(self.first + self.count - 1)]
    }

    fn pop(&mut self) -> Option<T> {
        if self.count == 0 {
            return None;
        }
        let item = self.places[self.first];
        self.first = Self::wrapped(self.first + 1);
        self.count -= 1;
        Some(item)
    }
}

struct Link<const N: usize> {
    format: Format,
    lengths: [u32; 13],
    waiting: Ring<u16, N>,
    // the bits left of the frame, how many of them there are, and the clocks left of the first
    bits: u32,
    bit: usize,
    bits_left: usize,
    clocks: u32,
    line: u8,
    ear: Ear,
    unread: Ring<Entry, N>,
}

impl<const N: usize> Link<N> {
    fn new(sender: Timing, receiver: Timing) -> Link<N> {
        Link {
            format: sender.format,
            lengths: sender.lengths,
            waiting: Ring::new(0),
            bits: 0,
            bit: 0,
            bits_left: 0,
            clocks: 0,
            line: MARK,
            ear: Ear::new(receiver),
            unread: Ring::new(Entry {
                character: 0,
                flags: 0,
            }),
        }
    }

    fn load(&mut self, character: u16) -> Result<(), u8> {
        if !self.format.agrees(&self.ear.timing.format) {
            return Err(FORMATS_DIFFER);
        }
        if character >> self.format.width != 0 {
            return Err(TOO_WIDE);
        }
        if self.waiting.count == N {
            return Err(FULL);
        }
        self.waiting.push(character);
        Ok(())
    }

    #[inline]
    fn send(&mut self) {
        if self.bits_left == 0 {
            let Some(character) = self.waiting.pop() else {
                self.line = MARK;
                return;
            };
            self.bits = self.format.frame(character);
            self.bits_left = self.format.bits();
            self.bit = 0;
            self.clocks = self.lengths[0];
        }
        self.line = (self.bits & 1) as u8;
        self.clocks -= 1;
        if self.clocks == 0 {
            self.bits >>= 1;
            self.bits_left -= 1;
            self.bit += 1;
            self.clocks = if self.bit < 13 { self.lengths[self.bit] } else { 0 };
        }
    }

    #[inline]
    fn receive(&mut self, level: u8) {
        let Some(mut entry) = self.ear.clock(level) else {
            return;
        };
        if self.unread.count < N {
            self.unread.push(entry);
        } else {
            let newest = self.unread.newest();
            entry.flags |= newest.flags | OVERRUN;
            *newest = entry;
        }
    }

    #[inline]
    fn act(&mut self, act: &Act) -> Answer {
        let done = Answer {
            kind: 0,
            flags: 0,
            value: 0,
        };
        let refused = |number: u8| Answer {
            kind: 3,
            flags: 0,
            value: number as u16,
        };
        match act.kind {
            0 => match self.load(act.value) {
                Ok(()) => done,
                Err(number) => refused(number),
            },
            1 => {
                self.send();
                Answer {
                    kind: 1,
                    flags: 0,
                    value: self.line as u16,
                }
            }
            2 => {
                self.receive(self.line);
                done
            }
            3 => {
                self.receive(act.value as u8);
                done
            }
            _ => match self.unread.pop() {
                Some(entry) => Answer {
                    kind: 2,
                    flags: entry.flags,
                    value: entry.character,
                },
                None => refused(NOTHING_UNREAD),
            },
        }
    }
}

pub fn run(sender: &End, receiver: &End, acts: &[Act], answers: &mut [Answer]) -> u8 {
    number(answered::<1>(sender, receiver, acts, answers))
}

pub fn run_queued(sender: &End, receiver: &End, acts: &[Act], answers: &mut [Answer]) -> u8 {
    number(answered::<17>(sender, receiver, acts, answers))
}

fn answered<const N: usize>(
    sender: &End,
    receiver: &End,
    acts: &[Act],
    answers: &mut [Answer],
) -> Result<(), u8> {
    let mut link = Link::<N>::new(Timing::new(sender)?, Timing::new(receiver)?);
    for act in acts {
        if act.kind > 4 {
            return Err(OUT_OF_RANGE);
        }
        if act.kind == 3 && act.value > 1 {
            return Err(NOT_A_LEVEL);
        }
    }
    if answers.len() < acts.len() {
        return Err(TOO_SHORT);
    }
    for (act, answer) in acts.iter().zip(answers) {
        *answer = link.act(act);
    }
    Ok(())
}
