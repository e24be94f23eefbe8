// Inputs for both sides: settings, characters, pictures and acts, from a seed.
use crate::capi::{Act, Answer, End, Entry};
use crate::plain;

// A small generator of numbers, so that every run has the same inputs.
pub struct Dice(u64);

impl Dice {
    pub fn new(seed: u64) -> Dice {
        Dice(seed | 1)
    }

    pub fn below(&mut self, limit: u64) -> u64 {
        self.0 ^= self.0 << 13;
        self.0 ^= self.0 >> 7;
        self.0 ^= self.0 << 17;
        (self.0 >> 11) % limit
    }

    pub fn one_in(&mut self, odds: u64) -> bool {
        self.below(odds) == 0
    }
}

pub fn eight_n_one(divider: u16, modulator: u8) -> End {
    End {
        divider,
        modulator,
        data_bits: 8,
        address_bits: 0,
        parity: 0,
        stop_bits: 1,
    }
}

pub const NO_ANSWER: Answer = Answer {
    kind: 99,
    flags: 99,
    value: 9999,
};

pub const NO_ENTRY: Entry = Entry {
    character: 9999,
    flags: 99,
};

// Mostly in range, sometimes with one number that is not.
pub fn end(dice: &mut Dice) -> End {
    let divider = match dice.below(8) {
        0 => 3,
        1 => 4 + dice.below(60) as u16,
        2 => 64 + dice.below(600) as u16,
        3 => 65_535,
        _ => 3 + dice.below(20) as u16,
    };
    let mut end = End {
        divider,
        modulator: dice.below(256) as u8,
        data_bits: 7 + dice.below(2) as u8,
        address_bits: dice.below(2) as u8,
        parity: dice.below(3) as u8,
        stop_bits: 1 + dice.below(2) as u8,
    };
    if dice.one_in(20) {
        match dice.below(5) {
            0 => end.divider = dice.below(3) as u16,
            1 => end.data_bits = 9,
            2 => end.address_bits = 2,
            3 => end.parity = 3,
            _ => end.stop_bits = 0,
        }
    }
    end
}

// An end that mostly agrees with the other.
pub fn other_end(dice: &mut Dice, end: &End) -> End {
    if dice.one_in(4) {
        return self::end(dice);
    }
    End {
        modulator: dice.below(256) as u8,
        stop_bits: 1 + dice.below(2) as u8,
        ..*end
    }
}

pub fn characters(dice: &mut Dice, end: &End, count: usize) -> Vec<u16> {
    let width = end.data_bits + end.address_bits;
    let mut list: Vec<u16> = (0..count).map(|_| dice.below(1 << width) as u16).collect();
    if count > 0 && dice.one_in(10) {
        let place = dice.below(count as u64) as usize;
        list[place] = 1 << width;
    }
    list
}

// A clean picture of the characters, or nothing where they cannot be drawn.
pub fn picture(end: &End, characters: &[u16]) -> Vec<u8> {
    let mut bytes = vec![1; characters.len() * 13 * (end.divider as usize + 1)];
    let mut written = 0;
    plain::draw(end, characters, &mut bytes, &mut written);
    bytes.truncate(written);
    bytes
}

// Flips, stretches of space and lost bytes; seldom a byte that is no level.
pub fn damage(dice: &mut Dice, picture: &mut Vec<u8>, hits: u64) {
    for _ in 0..hits {
        if picture.is_empty() {
            return;
        }
        let place = dice.below(picture.len() as u64) as usize;
        match dice.below(8) {
            0 => {
                let end = (place + dice.below(600) as usize).min(picture.len());
                picture[place..end].fill(0);
            }
            1 => {
                picture.remove(place);
            }
            _ => picture[place] ^= 1,
        }
    }
}

pub fn noise(dice: &mut Dice, size: usize) -> Vec<u8> {
    let odds = 2 + dice.below(30);
    let mut level = 1;
    (0..size)
        .map(|_| {
            if dice.one_in(odds) {
                level ^= 1;
            }
            level
        })
        .collect()
}

// Clocks in pairs for the most part, with loads, reads and noise between them.
pub fn acts(dice: &mut Dice, end: &End, count: usize) -> Vec<Act> {
    let width = end.data_bits + end.address_bits;
    let noisy = dice.one_in(2);
    let mut list = Vec::with_capacity(count);
    while list.len() < count {
        let (kind, value) = match dice.below(60) {
            0..=2 => (0, dice.below((1 << width) + 2) as u16),
            3 => (4, dice.below(9) as u16),
            4 if noisy => (3, dice.below(2) as u16),
            5 if noisy => (1 + dice.below(2) as u8, 0),
            _ => {
                list.push(Act { kind: 1, value: 0 });
                (2, 0)
            }
        };
        list.push(Act { kind, value });
    }
    if dice.one_in(12) {
        let place = dice.below(list.len() as u64) as usize;
        list[place] = match dice.below(3) {
            0 => Act { kind: 5, value: 0 },
            1 => Act { kind: 3, value: 2 },
            _ => Act {
                kind: 255,
                value: 3,
            },
        };
    }
    list
}

// Characters sent and read without a break, over so many clock pairs each.
pub fn steady(characters: usize, loads: usize, pairs: usize) -> Vec<Act> {
    let mut list = Vec::new();
    for round in 0..characters / loads {
        for load in 0..loads {
            let value = ((round * loads + load) * 37 % 256) as u16;
            list.push(Act { kind: 0, value });
        }
        for _ in 0..loads * pairs {
            list.push(Act { kind: 1, value: 0 });
            list.push(Act { kind: 2, value: 0 });
        }
        for _ in 0..loads {
            list.push(Act { kind: 4, value: 0 });
        }
    }
    list
}
