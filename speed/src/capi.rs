// The library's C functions, declared for Rust.

#[repr(C)]
#[derive(Clone, Copy, Debug)]
pub struct End {
    pub divider: u16,
    pub modulator: u8,
    pub data_bits: u8,
    pub address_bits: u8,
    pub parity: u8,
    pub stop_bits: u8,
}

#[repr(C)]
#[derive(Clone, Copy, Debug, PartialEq, Eq)]
pub struct Entry {
    pub character: u16,
    pub flags: u8,
}

#[repr(C)]
#[derive(Clone, Copy, Debug, PartialEq, Eq)]
pub struct Verdict {
    pub verdict: u8,
    pub bit: usize,
}

// Of the send clock and of the receive clock, in hertz. C has them as two numbers.
#[derive(Clone, Copy, Debug, PartialEq, Eq)]
pub struct Rates {
    pub send: u32,
    pub receive: u32,
}

#[repr(C)]
#[derive(Clone, Copy, Debug)]
pub struct Act {
    pub kind: u8,
    pub value: u16,
}

#[repr(C)]
#[derive(Clone, Copy, Debug, PartialEq, Eq)]
pub struct Answer {
    pub kind: u8,
    pub flags: u8,
    pub value: u16,
}

unsafe extern "C" {
    fn hotskrebi_draw(
        end: &End,
        characters: *const u16,
        character_count: usize,
        picture: *mut u8,
        picture_size: usize,
        written: &mut usize,
    ) -> u8;
    fn hotskrebi_scan(
        end: &End,
        picture: *const u8,
        picture_size: usize,
        entries: *mut Entry,
        entry_count: usize,
        found: &mut usize,
    ) -> u8;
    fn hotskrebi_fit(
        sender: &End,
        receiver: &End,
        send_rate: u32,
        receive_rate: u32,
        verdict: &mut Verdict,
    ) -> u8;
    fn hotskrebi_run(
        sender: &End,
        receiver: &End,
        acts: *const Act,
        act_count: usize,
        answers: *mut Answer,
        answer_count: usize,
    ) -> u8;
    fn hotskrebi_run_queued(
        sender: &End,
        receiver: &End,
        acts: *const Act,
        act_count: usize,
        answers: *mut Answer,
        answer_count: usize,
    ) -> u8;
}

pub fn draw(end: &End, characters: &[u16], picture: &mut [u8], written: &mut usize) -> u8 {
    unsafe {
        hotskrebi_draw(
            end,
            characters.as_ptr(),
            characters.len(),
            picture.as_mut_ptr(),
            picture.len(),
            written,
        )
    }
}

pub fn scan(end: &End, picture: &[u8], entries: &mut [Entry], found: &mut usize) -> u8 {
    unsafe {
        hotskrebi_scan(
            end,
            picture.as_ptr(),
            picture.len(),
            entries.as_mut_ptr(),
            entries.len(),
            found,
        )
    }
}

pub fn fit(sender: &End, receiver: &End, rates: Rates, verdict: &mut Verdict) -> u8 {
    unsafe { hotskrebi_fit(sender, receiver, rates.send, rates.receive, verdict) }
}

pub fn run(sender: &End, receiver: &End, acts: &[Act], answers: &mut [Answer]) -> u8 {
    unsafe {
        hotskrebi_run(
            sender,
            receiver,
            acts.as_ptr(),
            acts.len(),
            answers.as_mut_ptr(),
            answers.len(),
        )
    }
}

pub fn run_queued(sender: &End, receiver: &End, acts: &[Act], answers: &mut [Answer]) -> u8 {
    unsafe {
        hotskrebi_run_queued(
            sender,
            receiver,
            acts.as_ptr(),
            acts.len(),
            answers.as_mut_ptr(),
            answers.len(),
        )
    }
}
