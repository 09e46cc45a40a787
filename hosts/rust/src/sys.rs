//! What psci.h, psci_ctl.h and psci_guest.h declare; tests/headers.rs holds it to them.
use core::ffi::c_void;
use core::mem::{offset_of, size_of};

/// A place of any kind; all zero is empty.
#[repr(C)]
pub struct Place {
    pub held: *mut c_void,
    pub full: bool,
}

impl Place {
    pub const EMPTY: Place = Place { held: core::ptr::null_mut(), full: false };
}

/// Of a struct its name in C and its size; of each field its name, offset and size.
pub type Layout = (&'static str, usize, &'static [(&'static str, usize, usize)]);

macro_rules! structs {
    ($($(#[$doc:meta])* $name:ident = $of_c:ident { $($field:ident: $kind:ty),* $(,)? })*) => {
        $($(#[$doc])*
        #[repr(C)]
        #[derive(Clone, Copy, Debug, PartialEq, Eq)]
        #[allow(missing_docs)]
        pub struct $name { $(pub $field: $kind),* })*
        pub const LAYOUTS: &[Layout] = &[$((stringify!($of_c), size_of::<$name>(), &[
            $((stringify!($field), offset_of!($name, $field), size_of::<$kind>())),*
        ])),*];
    };
}

structs! {
    Frame = psci_frame { some: bool, bytes: [u8; 53] }
    /// What a call asks of its machine beside what the firmware is told.
    Asked = psci_asked { what: u32, states: [u8; 4], reset: u32 }
    Answer = psci_answer { what: u32, code: i32, address: u64, context: u64, message: Frame, asked: Asked }
    /// How deep a stop takes the domain of each level, and whether a wake-up may end it.
    Stop = psci_stop { depths: [u8; 4], wakes: bool }
    /// By what a core enters.
    Start = psci_ctl_start { core: u16, life: u32, number: u32, cause: u32 }
    Domain = psci_ctl_domain { level: u32, index: u16, depth: u8 }
    Reply = psci_ctl_answer { what: u32, start: Start, many: u32, domains: [Domain; 4], ack: Frame }
    Turned = psci_guest_turn { what: u32, life: u32, caller: Answer, start: Start, entry: Answer, stop: Stop }
    /// A level of the tree of power domains.
    Level = psci_level { nodes: u16, children: [u16; 256] }
    /// Executable memory: the addresses from start on, before end.
    Range = psci_range { start: u64, end: u64 }
    /// A board as a struct.
    Tree = psci_board {
        height: u32, format: u32, starts: u32, lives: u32, boot: u64, many_ranges: u32, ranges: [Range; 4],
        levels: [Level; 3],
    }
    /// A power state word of a machine.
    Row = psci_row { word: u32, mask: u32, states: [u8; 4] }
    /// What a machine calls its cores, power states and functions.
    Machine = psci_machine {
        levels: u32, functions: u32, many_mpidrs: u32, many_rows: u32, many_resets: u32, standby: [u8; 4],
        retention: [u8; 4], system: [u8; 4], resets: [u32; 8], rows: [Row; 64], mpidrs: [u64; 256],
    }
}

const FULL: &[(&str, usize, usize)] = &[("full", offset_of!(Place, full), size_of::<bool>())];
/// The places, one struct each in C.
pub const PLACES: [Layout; 4] = [
    ("psci_place", size_of::<Place>(), FULL),
    ("psci_poller", size_of::<Place>(), FULL),
    ("psci_ctl_place", size_of::<Place>(), FULL),
    ("psci_guest_place", size_of::<Place>(), FULL),
];

type At = *mut Place;
extern "C" {
    pub fn psci_version_of_library() -> u32;
    pub fn psci_open(at: At, text: *const u8, length: usize) -> u32;
    pub fn psci_open_board(at: At, tree: *const Tree) -> u32;
    pub fn psci_open_machine(at: At, tree: *const Tree, machine: *const Machine, boot: u64) -> u32;
    pub fn psci_close(at: At);
    pub fn psci_smc(at: At, core: u16, x0: u64, x1: u64, x2: u64, x3: u64, said: *mut Answer);
    pub fn psci_enter(at: At, core: u16, life: u32, number: u32, cause: u32, said: *mut Answer);
    pub fn psci_stop(at: At, core: u16, x0: u64, stop: *mut Stop);
    pub fn psci_take(at: At, frame: *const u8, length: usize) -> u32;
    pub fn psci_open_poller(at: At, poller: At) -> u32;
    pub fn psci_close_poller(poller: At);
    pub fn psci_poll(poller: At, affinity: u64) -> i32;
    pub fn psci_ctl_open(at: At, text: *const u8, length: usize) -> u32;
    pub fn psci_ctl_close(at: At);
    pub fn psci_ctl_deliver(at: At, frame: *const u8, length: usize, said: *mut Reply);
    pub fn psci_ctl_wake(at: At, core: u16, halted: u32, said: *mut Reply);
    pub fn psci_ctl_reset(at: At, core: u16, said: *mut Reply);
    pub fn psci_ctl_save_size(at: At) -> usize;
    pub fn psci_ctl_save(at: At, words: *mut u64, count: usize) -> u32;
    pub fn psci_ctl_load(at: At, words: *const u64, count: usize) -> u32;
    pub fn psci_guest_open(at: At, text: *const u8, length: usize, turn: *mut Turned) -> u32;
    pub fn psci_guest_open_board(at: At, tree: *const Tree, turn: *mut Turned) -> u32;
    pub fn psci_guest_open_machine(
        at: At,
        tree: *const Tree,
        machine: *const Machine,
        boot: u64,
        turn: *mut Turned,
    ) -> u32;
    pub fn psci_guest_close(at: At);
    pub fn psci_guest_call(at: At, core: u16, life: u32, x0: u64, x1: u64, x2: u64, x3: u64, turn: *mut Turned);
    pub fn psci_guest_wake(at: At, core: u16, turn: *mut Turned);
    pub fn psci_guest_reset(at: At, core: u16, turn: *mut Turned);
    pub fn psci_guest_save_size(at: At) -> usize;
    pub fn psci_guest_save(at: At, words: *mut u64, count: usize) -> u32;
    pub fn psci_guest_load(at: At, words: *const u64, count: usize) -> u32;
    pub fn psci_guest_status(at: At, level: u32, index: u16) -> u32;
    pub fn psci_guest_hw(at: At, level: u32, index: u16) -> u32;
    pub fn psci_guest_cores(at: At) -> u16;
}
