//! The foreign HDLC stacks that this crate was built with, called safely. See `foreign/`.

use std::ffi::c_void;

mod c {
    use std::ffi::c_void;

    pub type Hand = extern "C" fn(whose: *mut c_void, frame: *const u8, length: usize);
    pub type Read = unsafe extern "C" fn(*const u8, usize, Hand, *mut c_void) -> usize;
    pub type Write = unsafe extern "C" fn(*const u8, *const usize, usize, usize, *mut u8, usize) -> usize;

    #[allow(unused_macros)]
    macro_rules! stack {
        ($read:ident, $write:ident) => {
            extern "C" {
                pub fn $read(line: *const u8, length: usize, hand: Hand, whose: *mut c_void) -> usize;
                pub fn $write(
                    frames: *const u8, lengths: *const usize, count: usize, flags: usize, line: *mut u8, room: usize,
                ) -> usize;
            }
        };
    }

    #[cfg(feature = "isdnhdlc")]
    stack!(isdnhdlc_read, isdnhdlc_write);
    #[cfg(feature = "spandsp")]
    stack!(spandsp_read, spandsp_write);
}

/// A stack works out a check over all octets itself: what it takes and hands on is without one.
pub struct Stack {
    pub name: &'static str,
    /// The longest frames that it reads and writes, with their check.
    pub reads: usize,
    pub writes: usize,
    highest_bit_first: bool,
    read: c::Read,
    write: c::Write,
}

pub const NAMES: [&str; 2] = ["isdnhdlc", "spandsp"];

/// Those of `NAMES` that are there.
pub const STACKS: &[Stack] = &[
    #[cfg(feature = "isdnhdlc")]
    Stack {
        name: NAMES[0],
        reads: 490,
        writes: 490,
        highest_bit_first: false,
        read: c::isdnhdlc_read,
        write: c::isdnhdlc_write,
    },
    #[cfg(feature = "spandsp")]
    Stack {
        name: NAMES[1],
        reads: 404,
        writes: 402,
        highest_bit_first: true,
        read: c::spandsp_read,
        write: c::spandsp_write,
    },
];

extern "C" fn keep(whose: *mut c_void, frame: *const u8, length: usize) {
    // Sound: `whose` is the list that `read` lends, and a stack hands on a frame of that length.
    let (frames, frame) = unsafe { (&mut *whose.cast::<Vec<Vec<u8>>>(), std::slice::from_raw_parts(frame, length)) };
    frames.push(frame.to_vec());
}

extern "C" fn count(whose: *mut c_void, _: *const u8, _: usize) {
    // Sound: `whose` is the number that `count` lends.
    unsafe { *whose.cast::<usize>() += 1 };
}

// Sound: the C functions reach no further than these lengths and keep nothing. They are not to be called by
// two threads at once.
impl Stack {
    /// Turns a line from its lowest bit first to the stack's order, or back.
    pub fn turn(&self, line: &mut [u8]) {
        if self.highest_bit_first {
            line.iter_mut().for_each(|octet| *octet = octet.reverse_bits());
        }
    }

    /// The frames of a line and how often the stack complained.
    pub fn read(&self, line: &[u8]) -> (Vec<Vec<u8>>, usize) {
        let (mut line, mut frames) = (line.to_vec(), Vec::<Vec<u8>>::new());
        self.turn(&mut line);
        let complaints = unsafe { (self.read)(line.as_ptr(), line.len(), keep, (&raw mut frames).cast()) };
        (frames, complaints)
    }

    /// A line of so many octets with the frames on it and flags between and behind them.
    pub fn write(&self, frames: &[&[u8]], flags: usize, room: usize) -> Vec<u8> {
        let mut line = vec![0; room];
        let lengths: Vec<usize> = frames.iter().map(|frame| frame.len()).collect();
        assert_eq!(self.write_turned(&frames.concat(), &lengths, flags, &mut line), frames.len(), "{}", self.name);
        self.turn(&mut line);
        line
    }

    /// The number of frames on a line that is in the stack's order already.
    pub fn count_turned(&self, line: &[u8]) -> usize {
        let mut frames = 0_usize;
        unsafe { (self.read)(line.as_ptr(), line.len(), count, (&raw mut frames).cast()) };
        frames
    }

    /// Leaves the line in the stack's order; gives the number of frames written.
    pub fn write_turned(&self, frames: &[u8], lengths: &[usize], flags: usize, line: &mut [u8]) -> usize {
        assert!(lengths.iter().sum::<usize>() <= frames.len());
        unsafe { (self.write)(frames.as_ptr(), lengths.as_ptr(), lengths.len(), flags, line.as_mut_ptr(), line.len()) }
    }
}
