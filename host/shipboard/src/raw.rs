//! The exported calls as they are, on slices: one function each, nothing added. `include/unit.h` has their promises.
//!
//! A slice goes over as its pointer and its length. The library reads and writes inside the slices that it is lent and nowhere
//! else, keeps none of them, and accepts any length and any contents, so these functions are safe: that a slice which may be
//! written overlaps no other one is what `&mut` says.

mod exported {
    extern "C" {
        pub fn unit_fresh(
            id: *const u8,
            id_size: usize,
            secret: *const u8,
            secret_size: usize,
            width: u32,
            state: *mut u8,
            state_size: usize,
        ) -> u64;
        pub fn unit_hello(
            state: *mut u8,
            state_size: usize,
            random: *const u8,
            random_size: usize,
            macs: *const u8,
            macs_size: usize,
            refresh: u32,
            out: *mut u8,
            room: usize,
        ) -> u64;
        pub fn unit_again(state: *const u8, state_size: usize, out: *mut u8, room: usize) -> u64;
        pub fn unit_receive(
            state: *mut u8,
            state_size: usize,
            tally: *mut u8,
            tally_size: usize,
            datagram: *const u8,
            datagram_size: usize,
            out: *mut u8,
            room: usize,
            answers: *mut u8,
            answers_size: usize,
        ) -> u64;
        pub fn unit_send_data(
            state: *mut u8,
            state_size: usize,
            data: *const u8,
            data_size: usize,
            out: *mut u8,
            room: usize,
        ) -> u64;
        pub fn unit_send_alert(
            state: *mut u8,
            state_size: usize,
            protected: u32,
            level: u32,
            description: u32,
            answered: *const u8,
            answered_size: usize,
            out: *mut u8,
            room: usize,
        ) -> u64;
        pub fn unit_close(state: *mut u8, state_size: usize) -> u64;
        pub fn unit_start(state: *mut u8, state_size: usize) -> u64;
        pub fn unit_state(state: *const u8, state_size: usize) -> u64;
        pub fn unit_arrived(state: *const u8, state_size: usize) -> u64;
        pub fn unit_width(state: *const u8, state_size: usize) -> u64;
    }
}

/// What a call answers, taken apart.
#[derive(Clone, Copy, PartialEq, Eq, Debug)]
pub struct Result {
    /// 0: done; else the number of the refusal.
    pub refusal: u32,
    /// How many bytes stand at the front of the output.
    pub written: usize,
    /// As each call says.
    pub count: usize,
}

impl Result {
    fn of(number: u64) -> Result {
        Result {
            refusal: (number >> 32) as u32,
            written: (number >> 16 & 0xffff) as usize,
            count: (number & 0xffff) as usize,
        }
    }
}

pub fn fresh(id: &[u8], secret: &[u8], width: u32, state: &mut [u8]) -> Result {
    // Safety: each pointer is that of a slice, beside its length.
    Result::of(unsafe {
        exported::unit_fresh(
            id.as_ptr(),
            id.len(),
            secret.as_ptr(),
            secret.len(),
            width,
            state.as_mut_ptr(),
            state.len(),
        )
    })
}

pub fn hello(state: &mut [u8], random: &[u8], macs: &[u8], refresh: u32, out: &mut [u8]) -> Result {
    // Safety: each pointer is that of a slice, beside its length.
    Result::of(unsafe {
        exported::unit_hello(
            state.as_mut_ptr(),
            state.len(),
            random.as_ptr(),
            random.len(),
            macs.as_ptr(),
            macs.len(),
            refresh,
            out.as_mut_ptr(),
            out.len(),
        )
    })
}

pub fn again(state: &[u8], out: &mut [u8]) -> Result {
    // Safety: each pointer is that of a slice, beside its length.
    Result::of(unsafe {
        exported::unit_again(state.as_ptr(), state.len(), out.as_mut_ptr(), out.len())
    })
}

pub fn receive(
    state: &mut [u8],
    tally: &mut [u8],
    datagram: &[u8],
    out: &mut [u8],
    answers: &mut [u8],
) -> Result {
    // Safety: each pointer is that of a slice, beside its length.
    Result::of(unsafe {
        exported::unit_receive(
            state.as_mut_ptr(),
            state.len(),
            tally.as_mut_ptr(),
            tally.len(),
            datagram.as_ptr(),
            datagram.len(),
            out.as_mut_ptr(),
            out.len(),
            answers.as_mut_ptr(),
            answers.len(),
        )
    })
}

pub fn send_data(state: &mut [u8], data: &[u8], out: &mut [u8]) -> Result {
    // Safety: each pointer is that of a slice, beside its length.
    Result::of(unsafe {
        exported::unit_send_data(
            state.as_mut_ptr(),
            state.len(),
            data.as_ptr(),
            data.len(),
            out.as_mut_ptr(),
            out.len(),
        )
    })
}

pub fn send_alert(
    state: &mut [u8],
    protected: u32,
    level: u32,
    description: u32,
    answered: &[u8],
    out: &mut [u8],
) -> Result {
    // Safety: each pointer is that of a slice, beside its length.
    Result::of(unsafe {
        exported::unit_send_alert(
            state.as_mut_ptr(),
            state.len(),
            protected,
            level,
            description,
            answered.as_ptr(),
            answered.len(),
            out.as_mut_ptr(),
            out.len(),
        )
    })
}

pub fn close(state: &mut [u8]) -> Result {
    // Safety: the pointer is that of a slice, beside its length.
    Result::of(unsafe { exported::unit_close(state.as_mut_ptr(), state.len()) })
}

pub fn start(state: &mut [u8]) -> Result {
    // Safety: the pointer is that of a slice, beside its length.
    Result::of(unsafe { exported::unit_start(state.as_mut_ptr(), state.len()) })
}

pub fn state(state: &[u8]) -> Result {
    // Safety: the pointer is that of a slice, beside its length.
    Result::of(unsafe { exported::unit_state(state.as_ptr(), state.len()) })
}

pub fn arrived(state: &[u8]) -> Result {
    // Safety: the pointer is that of a slice, beside its length.
    Result::of(unsafe { exported::unit_arrived(state.as_ptr(), state.len()) })
}

pub fn width(state: &[u8]) -> Result {
    // Safety: the pointer is that of a slice, beside its length.
    Result::of(unsafe { exported::unit_width(state.as_ptr(), state.len()) })
}
