// Whether both sides answer the same.
use crate::capi::{self, Rates, Verdict};
use crate::inputs::{self, Dice, NO_ANSWER, NO_ENTRY};
use crate::plain;

type Compared = Result<(), String>;

fn same<T: PartialEq + std::fmt::Debug>(what: &str, library: T, rust: T) -> Compared {
    if library == rust {
        return Ok(());
    }
    let (mut library, mut rust) = (format!("{library:?}"), format!("{rust:?}"));
    library.truncate(300);
    rust.truncate(300);
    Err(format!("{what}: the library answers {library}, Rust {rust}"))
}

pub fn draws(dice: &mut Dice, rounds: usize) -> Compared {
    for round in 0..rounds {
        let end = inputs::end(dice);
        let count = match round % 40 {
            0 => 4090 + dice.below(10) as usize,
            1 => 300,
            _ => dice.below(12) as usize,
        };
        if count > 12 && end.divider > 60 {
            continue;
        }
        let characters = inputs::characters(dice, &end, count);
        let size = inputs::picture(&end, &characters).len();
        let room = (size + dice.below(3) as usize).saturating_sub(1);
        let (mut a, mut b) = (vec![7; room], vec![7; room]);
        let (mut n, mut m) = (99, 99);
        let what = format!("draw of {count} characters at {end:?} into {room} bytes");
        let first = capi::draw(&end, &characters, &mut a, &mut n);
        same(&what, first, plain::draw(&end, &characters, &mut b, &mut m))?;
        same(&what, n, m)?;
        same(&what, a, b)?;
    }
    Ok(())
}

pub fn scans(dice: &mut Dice, rounds: usize) -> Compared {
    for round in 0..rounds {
        let end = inputs::end(dice);
        let mut picture = match round % 4 {
            0 => inputs::noise(dice, 40 * end.divider.min(900) as usize),
            _ => {
                let count = if end.divider < 60 { 40 } else { 3 };
                let characters = inputs::characters(dice, &end, count);
                inputs::picture(&end, &characters)
            }
        };
        if round % 4 > 1 {
            let hits = 1 + dice.below(30);
            inputs::damage(dice, &mut picture, hits);
        }
        if round % 50 == 3 && !picture.is_empty() {
            let place = dice.below(picture.len() as u64) as usize;
            picture[place] = 2 + dice.below(254) as u8;
        }
        let mut entries = vec![NO_ENTRY; picture.len() / 8 + 9];
        let mut found = 0;
        plain::scan(&end, &picture, &mut entries, &mut found);
        let room = (found + dice.below(4) as usize).saturating_sub(1);
        let (mut a, mut b, mut c) = (vec![NO_ENTRY; room], vec![NO_ENTRY; room], vec![NO_ENTRY; room]);
        let (mut n, mut m, mut l) = (99, 99, 99);
        let what = format!("scan {round} of {} bytes at {end:?} into {room} entries", picture.len());
        let first = capi::scan(&end, &picture, &mut a, &mut n);
        same(&what, first, plain::scan(&end, &picture, &mut b, &mut m))?;
        same(&what, first, plain::scan_samples(&end, &picture, &mut c, &mut l))?;
        same(&what, n, m)?;
        same(&what, n, l)?;
        same(&what, &a, &b)?;
        same(&what, &a, &c)?;
    }
    Ok(())
}

pub fn fits(dice: &mut Dice, rounds: usize) -> Compared {
    for _ in 0..rounds {
        let sender = inputs::end(dice);
        let receiver = inputs::other_end(dice, &sender);
        let rate = 1 + dice.below(2000);
        let (send, receive) = match dice.below(10) {
            0 => (dice.below(1 << 25) as u32, dice.below(1 << 25) as u32),
            1 => (0, 1),
            2 => (16_777_216, 16_777_217),
            _ => ((rate * 50 + dice.below(1 + rate * 4)) as u32, (rate * 52) as u32),
        };
        let rates = Rates { send, receive };
        let blank = Verdict { verdict: 9, bit: 99 };
        let (mut a, mut b) = (blank, blank);
        let what = format!("Fit of {sender:?} to {receiver:?} at {rates:?}");
        let first = capi::fit(&sender, &receiver, rates, &mut a);
        same(&what, first, plain::fit(&sender, &receiver, rates, &mut b))?;
        same(&what, a, b)?;
    }
    Ok(())
}

pub fn runs(dice: &mut Dice, rounds: usize) -> Compared {
    for round in 0..rounds {
        let sender = inputs::end(dice);
        let receiver = inputs::other_end(dice, &sender);
        let count = if round % 10 == 0 { 40_000 } else { 3000 };
        let acts = inputs::acts(dice, &sender, count);
        let room = acts.len() + dice.below(12) as usize - if dice.one_in(12) { 5 } else { 0 };
        let (mut a, mut b) = (vec![NO_ANSWER; room], vec![NO_ANSWER; room]);
        let what = format!("run {round} of {} acts from {sender:?} to {receiver:?}", acts.len());
        let first = capi::run(&sender, &receiver, &acts, &mut a);
        same(&what, first, plain::run(&sender, &receiver, &acts, &mut b))?;
        same(&what, &a, &b)?;
        let what = format!("{what}, with queues");
        let first = capi::run_queued(&sender, &receiver, &acts, &mut a);
        same(&what, first, plain::run_queued(&sender, &receiver, &acts, &mut b))?;
        same(&what, &a, &b)?;
    }
    Ok(())
}
