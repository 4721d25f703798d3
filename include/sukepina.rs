//! Sukepina, the water level monitor: a safe Rust module over libsukepina.a. See docs/C_LIBRARY.md.
//!
//! `#[path = ".../sukepina.rs"] mod sukepina;`, and link with `-L crates/sukepina/out`.
//! References are never null, misaligned or overlapping, and a slice is never longer than `isize::MAX`, so the
//! library's functions can be called as they are.

#![allow(dead_code)]

pub const LINE_ROOM: usize = 64; // enough for any line
pub const RECORD_LEN: usize = 19;

#[repr(u32)]
#[derive(Clone, Copy, Debug, PartialEq, Eq)]
pub enum Refusal {
    Short = 1,
    Mark = 2,
    Flags = 3,
    Time = 4,
    Output = 5,
    Setting = 6,
    State = 7,
    Argument = 8,
}

impl Refusal {
    /// From a call's answer; the library gives no other numbers.
    fn check(answer: u32) -> Result<(), Refusal> {
        Err(match answer {
            0 => return Ok(()),
            1 => Refusal::Short,
            2 => Refusal::Mark,
            3 => Refusal::Flags,
            4 => Refusal::Time,
            5 => Refusal::Output,
            6 => Refusal::Setting,
            7 => Refusal::State,
            _ => Refusal::Argument,
        })
    }
}

/// In units of 0.00001 cm.
#[repr(C)]
#[derive(Clone, Copy, Debug, Default, PartialEq)]
pub struct Plate {
    pub low_mark: u32,
    pub low_limit: u32,
    pub high_limit: u32,
    pub high_mark: u32,
    pub hysteresis: u32,
}

/// Marks at 13 and 27 cm, limits at 14 and 26 cm, half a centimetre of hysteresis.
pub const STANDARD_PLATE: Plate = Plate {
    low_mark: 1_300_000,
    low_limit: 1_400_000,
    high_limit: 2_600_000,
    high_mark: 2_700_000,
    hysteresis: 50_000,
};

#[repr(C)]
#[derive(Clone, Copy, Debug, Default, PartialEq)]
pub struct Step {
    /// ms
    pub time: u64,
    /// the gauge's words
    pub a: u32,
    pub b: u32,
    /// bit 0 power on, 1 reset down, 2 self test down, 3 memory failed, 4 clock failed
    pub facts: u32,
}

#[repr(C)]
#[derive(Clone, Copy, Debug, Default, PartialEq)]
pub struct Core {
    pub time: u64,
    pub entered: u64,
    pub reset_since: u64,
    pub test_since: u64,
    pub plate: Plate,
    pub mode: u32,
    pub failure: u32,
    pub signal: u32,
    pub watchdog: u32,
    pub reset_down: u32,
    pub test_down: u32,
    pub high: u32,
    pub low: u32,
    pub alarm: u32,
    pub figure: [u8; 4],
}

/// Pressure cell and direct contact.
#[repr(C)]
#[derive(Clone, Copy, Debug, Default, PartialEq)]
pub struct Cell {
    pub core: Core,
    pub taken: u32,
    pub word: u32,
    pub closed: u32,
}

/// Echo gauge, and rest layer over a drive word.
#[repr(C)]
#[derive(Clone, Copy, Debug, Default, PartialEq)]
pub struct Echo {
    pub core: Core,
    pub rest: u64,
    pub last_tick: u64,
    pub opening: u64,
    pub opened: u32,
    pub mount: f32,
    pub fault: u32,
    pub level: u32,
    pub drive: u32,
}

const _: () = assert!(size_of::<Cell>() == 112 && size_of::<Echo>() == 144);

/// The library's own functions.
pub mod raw {
    use super::{Cell, Echo, Plate, Step};

    #[link(name = "sukepina", kind = "static")]
    unsafe extern "C" {
        pub fn sukepina_cell_set_up_raw(monitor: *mut Cell, plate: *const Plate) -> u32;
        pub fn sukepina_cell_step_raw(monitor: *mut Cell, step: *const Step) -> u32;
        pub fn sukepina_cell_feed_raw(monitor: *mut Cell, bytes: *const u8, len: usize, place: *mut usize) -> u32;
        pub fn sukepina_cell_readout_raw(monitor: *const Cell, out: *mut u8, room: usize, len: *mut usize) -> u32;
        pub fn sukepina_cell_lines_raw(
            monitor: *mut Cell,
            bytes: *const u8,
            bytes_len: usize,
            place: *mut usize,
            out: *mut u8,
            room: usize,
            written: *mut usize,
        ) -> u32;

        pub fn sukepina_echo_set_up_raw(monitor: *mut Echo, plate: *const Plate, mount: f32, rest: u64) -> u32;
        pub fn sukepina_echo_step_raw(monitor: *mut Echo, step: *const Step) -> u32;
        pub fn sukepina_echo_feed_raw(monitor: *mut Echo, bytes: *const u8, len: usize, place: *mut usize) -> u32;
        pub fn sukepina_echo_readout_raw(monitor: *const Echo, out: *mut u8, room: usize, len: *mut usize) -> u32;
        pub fn sukepina_echo_lines_raw(
            monitor: *mut Echo,
            bytes: *const u8,
            bytes_len: usize,
            place: *mut usize,
            out: *mut u8,
            room: usize,
            written: *mut usize,
        ) -> u32;
    }
}

/// Its numbers may be read, stored and set to anything: a call on what is no state answers `Refusal::State`.
#[derive(Clone, Debug, PartialEq)]
pub struct CellMonitor {
    pub state: Cell,
}

/// See `CellMonitor`.
#[derive(Clone, Debug, PartialEq)]
pub struct EchoMonitor {
    pub state: Echo,
}

impl CellMonitor {
    pub fn set_up(plate: &Plate) -> Result<CellMonitor, Refusal> {
        let mut state = Cell::default();
        Refusal::check(unsafe { raw::sukepina_cell_set_up_raw(&mut state, plate) })?;
        Ok(CellMonitor { state })
    }
}

impl EchoMonitor {
    /// The mount in cm, the rest in ms.
    pub fn set_up(plate: &Plate, mount: f32, rest: u64) -> Result<EchoMonitor, Refusal> {
        let mut state = Echo::default();
        Refusal::check(unsafe { raw::sukepina_echo_set_up_raw(&mut state, plate, mount, rest) })?;
        Ok(EchoMonitor { state })
    }
}

macro_rules! calls {
    ($monitor:ty, $step:ident, $feed:ident, $readout:ident, $lines:ident) => {
        impl $monitor {
            pub fn step(&mut self, step: &Step) -> Result<(), Refusal> {
                Refusal::check(unsafe { raw::$step(&mut self.state, step) })
            }

            /// Steps with the record at the place; answers the next place.
            pub fn feed(&mut self, bytes: &[u8], mut place: usize) -> Result<usize, Refusal> {
                let answer = unsafe { raw::$feed(&mut self.state, bytes.as_ptr(), bytes.len(), &mut place) };
                Refusal::check(answer).map(|()| place)
            }

            /// Writes the line to the front of `out`; answers its length.
            pub fn readout(&self, out: &mut [u8]) -> Result<usize, Refusal> {
                let mut len = 0;
                let answer = unsafe { raw::$readout(&self.state, out.as_mut_ptr(), out.len(), &mut len) };
                Refusal::check(answer).map(|()| len)
            }

            /// Feeds the records from the place on and writes a line for each, while `LINE_ROOM` bytes of `out` are
            /// left; answers how much it wrote. All is done when the place is the length of the bytes.
            pub fn lines(&mut self, bytes: &[u8], place: &mut usize, out: &mut [u8]) -> Result<usize, Refusal> {
                let mut written = 0;
                let answer = unsafe {
                    raw::$lines(
                        &mut self.state,
                        bytes.as_ptr(),
                        bytes.len(),
                        place,
                        out.as_mut_ptr(),
                        out.len(),
                        &mut written,
                    )
                };
                Refusal::check(answer).map(|()| written)
            }
        }
    };
}

calls!(CellMonitor, sukepina_cell_step_raw, sukepina_cell_feed_raw, sukepina_cell_readout_raw, sukepina_cell_lines_raw);
calls!(EchoMonitor, sukepina_echo_step_raw, sukepina_echo_feed_raw, sukepina_echo_readout_raw, sukepina_echo_lines_raw);
