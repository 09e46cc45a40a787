//! PSCI 1.1 for monitors in Rust, by the archive `libpsci_ffi.a`: a [`Guest`] is firmware and power controller as one,
//! a [`Firmware`] that one side. The C headers say what each call means. Each takes `&mut self`, so the lock is the
//! user's, as in `Mutex<Guest>`; a [`Poller`] takes none.
#![no_std]
#![warn(missing_docs)]
extern crate alloc;

mod heap;
#[doc(hidden)]
#[allow(missing_docs)]
pub mod sys;

use alloc::{boxed::Box, vec, vec::Vec};
use core::{cell::UnsafeCell, mem::MaybeUninit};
pub use sys::{Asked, Level, Machine, Range, Row, Start, Stop, Tree};

/// Whether the archive was compiled before any proof.
pub const IS_UNPROVED: bool = matches!(env!("PSCI_IS_UNPROVED").as_bytes(), b"true");

/// The version of the archive: 0x010000 is 1.0.0.
pub fn version() -> u32 {
    unsafe { sys::psci_version_of_library() }
}

macro_rules! faults {
    ($($(#[$doc:meta])* $name:ident { $($case:ident $of_c:ident $number:literal),* $(,)? })*) => {
        $($(#[$doc])*
        #[derive(Clone, Copy, Debug, PartialEq, Eq)]
        #[allow(missing_docs)]
        pub enum $name { $($case,)* Unknown(u32) }

        impl From<u32> for $name {
            fn from(number: u32) -> Self {
                match number { $($number => Self::$case,)* _ => Self::Unknown(number) }
            }
        })*
        /// The name in C of each number.
        #[doc(hidden)]
        pub const NUMBERS: &[(&str, u32)] = &[$($((stringify!($of_c), $number)),*),*];
    };
}

faults! {
    /// Why nothing was opened.
    OpenFault {
        Grammar PSCI_BOARD_GRAMMAR 1, Uneven PSCI_BOARD_UNEVEN 2, TooWide PSCI_BOARD_TOO_WIDE 3,
        TooManyCores PSCI_BOARD_TOO_MANY_CORES 4, BadRange PSCI_BOARD_BAD_RANGE 5, BadBoot PSCI_BOARD_BAD_BOOT 6,
        BadLimit PSCI_BOARD_BAD_LIMIT 7, NoMemory PSCI_NO_MEMORY 8, NoRoom PSCI_MACHINE_NO_ROOM 64,
        WrongCount PSCI_MACHINE_WRONG_COUNT 65, BadMpidr PSCI_MACHINE_BAD_MPIDR 66,
        SameMpidr PSCI_MACHINE_SAME_MPIDR 67, NoBootCore PSCI_MACHINE_NO_BOOT_CORE 68,
        LateBootCore PSCI_MACHINE_LATE_BOOT_CORE 69, TooManyLevels PSCI_MACHINE_TOO_MANY_LEVELS 70,
        BadWord PSCI_MACHINE_BAD_WORD 73, SameWord PSCI_MACHINE_SAME_WORD 74, WrongType PSCI_MACHINE_WRONG_TYPE 75,
        BadStates PSCI_MACHINE_BAD_STATES 76, BadSystem PSCI_MACHINE_BAD_SYSTEM 77,
        BadFunctions PSCI_MACHINE_BAD_FUNCTIONS 78,
    }
    /// Why a call was refused; then nothing changed.
    Refusal {
        NoCore PSCI_NO_CORE 17, NoLife PSCI_NO_LIFE 18, NotRunning PSCI_NOT_RUNNING 19, OldStart PSCI_OLD_START 20,
        NoCause PSCI_NO_CAUSE 21, Length PSCI_FRAME_LENGTH 33, Magic PSCI_FRAME_MAGIC 34, Kind PSCI_FRAME_KIND 35,
        Count PSCI_FRAME_COUNT 36, Unused PSCI_FRAME_UNUSED 37, Core PSCI_FRAME_CORE 38, Depth PSCI_FRAME_DEPTH 39,
        Level PSCI_FRAME_LEVEL 40, NotAnAck PSCI_FRAME_NOT_AN_ACK 41,
    }
    /// Why words were not loaded; then nothing changed. From `SavedLength` on they are the power controller's.
    LoadFault {
        NoMemory PSCI_NO_MEMORY 8, Length PSCI_GUEST_LENGTH 80, Format PSCI_GUEST_FORMAT 81, Sum PSCI_GUEST_SUM 82,
        Life PSCI_GUEST_LIFE 83, Mode PSCI_GUEST_MODE 84, Core PSCI_GUEST_CORE 85, Depth PSCI_GUEST_DEPTH 86,
        Row PSCI_GUEST_ROW 87, Message PSCI_GUEST_MESSAGE 88, Values PSCI_GUEST_VALUES 89,
        SavedLength PSCI_SAVED_LENGTH 50, SavedFormat PSCI_SAVED_FORMAT 51, SavedSum PSCI_SAVED_SUM 52,
        SavedLife PSCI_SAVED_LIFE 53, SavedStarts PSCI_SAVED_STARTS 54, SavedDepth PSCI_SAVED_DEPTH 55,
    }
}

fn done<F: From<u32>>(said: u32) -> Result<(), F> {
    match said {
        0 => Ok(()),
        fault => Err(fault.into()),
    }
}

/// What a call of C writes. Each struct of the headers may be all zero.
fn written<T>(call: impl FnOnce(*mut T)) -> T {
    let mut room = MaybeUninit::zeroed();
    call(room.as_mut_ptr());
    unsafe { room.assume_init() }
}

/// What is opened.
#[derive(Clone, Copy)]
pub enum Board<'a> {
    /// A board text.
    Text(&'a str),
    /// A board as a struct.
    Tree(&'a Tree),
    /// A board with the words of a machine, and the MPIDR of the core that boots.
    Machine(&'a Tree, &'a Machine, u64),
}

/// What a core does next.
#[derive(Clone, Copy, Debug, PartialEq, Eq)]
pub enum Act {
    /// It goes on behind its call, with this code: [`register`] says what is in x0.
    Return(i32),
    /// It executes nothing more in this start.
    Stop(Stop),
    /// It goes on at this address, as after reset, with this context in x0.
    Enter(u64, u64),
    /// It goes on behind the suspend in which it stopped, with 0 in x0.
    Resume,
}

impl Act {
    fn of(said: &sys::Answer, stop: impl FnOnce() -> Stop) -> Result<Act, Refusal> {
        match said.what {
            0 => Ok(Act::Return(said.code)),
            1 => Ok(Act::Stop(stop())),
            2 => Ok(Act::Enter(said.address, said.context)),
            3 => Ok(Act::Resume),
            refusal => Err(refusal.into()),
        }
    }
}

/// x0 behind a call of this function word: as wide as the call was.
pub const fn register(code: i32, word: u64) -> u64 {
    if word & 1 << 30 != 0 {
        code as u64
    } else {
        code as u32 as u64
    }
}

/// The bytes of a message or of an acknowledgement.
pub type Frame = [u8; 53];

/// A place, and what closes it. It stays where it is while it is open, and only calls of its owner read it. The library
/// keeps nothing of a thread, so it may go to another one; the cell keeps two threads from reading it at once.
struct Held(Box<UnsafeCell<sys::Place>>, unsafe extern "C" fn(*mut sys::Place));
unsafe impl Send for Held {}

impl Held {
    fn empty(close: unsafe extern "C" fn(*mut sys::Place)) -> Held {
        Held(Box::new(UnsafeCell::new(sys::Place::EMPTY)), close)
    }

    fn at(&self) -> *mut sys::Place {
        self.0.get()
    }
}

impl Drop for Held {
    fn drop(&mut self) {
        unsafe { self.1(self.at()) }
    }
}

/// The power of a guest: firmware and power controller as one.
pub struct Guest(Held);

/// What came of a turn of a guest.
#[derive(Clone, Copy, Debug, PartialEq, Eq)]
pub struct Turn {
    /// The life after it, from 1; 0 once the system is off.
    pub life: u32,
    /// Of a call, what the caller does next.
    pub caller: Option<Act>,
    /// What the caller asked of its machine.
    pub asked: Asked,
    /// The core that entered, by which start, and what it does next: `Stop` where it parks.
    pub entered: Option<(Start, Act)>,
}

impl Turn {
    fn of(is_call: bool, call: impl FnOnce(*mut sys::Turned)) -> Result<Turn, Refusal> {
        let turn = written(call);
        done::<Refusal>(turn.what)?;
        let caller = is_call.then(|| Act::of(&turn.caller, || turn.stop)).transpose()?;
        let entry = || Act::of(&turn.entry, || Stop { depths: [0; 4], wakes: false });
        let entered = (turn.start.number != 0).then(entry).transpose()?.map(|act| (turn.start, act));
        Ok(Turn { life: turn.life, caller, asked: turn.caller.asked, entered })
    }
}

impl Guest {
    /// The power of a new guest, and how its boot core enters.
    pub fn open(board: Board) -> Result<(Guest, Turn), OpenFault> {
        let guest = Guest(Held::empty(sys::psci_guest_close));
        let (at, mut said) = (guest.0.at(), 0);
        let turn = Turn::of(false, |turn| {
            said = match board {
                Board::Text(text) => unsafe { sys::psci_guest_open(at, text.as_ptr(), text.len(), turn) },
                Board::Tree(tree) => unsafe { sys::psci_guest_open_board(at, tree, turn) },
                Board::Machine(tree, of, boot) => unsafe { sys::psci_guest_open_machine(at, tree, of, boot, turn) },
            }
        });
        done::<OpenFault>(said)?;
        Ok((guest, turn.map_err(|_| OpenFault::Unknown(said))?))
    }

    /// A core calls, in the life in which it entered (`life` of its last turn).
    pub fn call(&mut self, core: u16, life: u32, [x0, x1, x2, x3]: [u64; 4]) -> Result<Turn, Refusal> {
        Turn::of(true, |turn| unsafe { sys::psci_guest_call(self.0.at(), core, life, x0, x1, x2, x3, turn) })
    }

    /// A core that stands has a wake-up event.
    pub fn wake(&mut self, core: u16) -> Result<Turn, Refusal> {
        Turn::of(false, |turn| unsafe { sys::psci_guest_wake(self.0.at(), core, turn) })
    }

    /// A core is reset by itself.
    pub fn reset(&mut self, core: u16) -> Result<Turn, Refusal> {
        Turn::of(false, |turn| unsafe { sys::psci_guest_reset(self.0.at(), core, turn) })
    }

    /// Its words, which do not name the board.
    pub fn save(&self) -> Vec<u64> {
        let mut words = vec![0; unsafe { sys::psci_guest_save_size(self.0.at()) }];
        unsafe { sys::psci_guest_save(self.0.at(), words.as_mut_ptr(), words.len()) };
        words
    }

    /// Goes on where a guest of the same board was saved.
    pub fn load(&mut self, words: &[u64]) -> Result<(), LoadFault> {
        done(unsafe { sys::psci_guest_load(self.0.at(), words.as_ptr(), words.len()) })
    }

    /// What AFFINITY_INFO says: 0 on, 1 off, 2 pending. Level 0 is that of the cores.
    pub fn status(&self, level: u32, index: u16) -> Result<u32, Refusal> {
        known(unsafe { sys::psci_guest_status(self.0.at(), level, index) })
    }

    /// What NODE_HW_STATE says: 0 on, 1 off, 2 standby.
    pub fn hw(&self, level: u32, index: u16) -> Result<u32, Refusal> {
        known(unsafe { sys::psci_guest_hw(self.0.at(), level, index) })
    }

    /// How many cores there are.
    pub fn cores(&self) -> u16 {
        unsafe { sys::psci_guest_cores(self.0.at()) }
    }
}

fn known(said: u32) -> Result<u32, Refusal> {
    match said {
        0..=2 => Ok(said),
        refusal => Err(refusal.into()),
    }
}

/// The firmware's side alone.
pub struct Firmware(Held);

/// What the firmware answers: also a message to the power controller, and what a call asked of its machine.
#[derive(Clone, Copy, Debug, PartialEq, Eq)]
#[allow(missing_docs)]
pub struct Answer {
    pub act: Act,
    pub message: Option<Frame>,
    pub asked: Asked,
}

impl Firmware {
    /// A new firmware, which no core has entered.
    pub fn open(board: Board) -> Result<Firmware, OpenFault> {
        let firmware = Firmware(Held::empty(sys::psci_close));
        let at = firmware.0.at();
        done(match board {
            Board::Text(text) => unsafe { sys::psci_open(at, text.as_ptr(), text.len()) },
            Board::Tree(tree) => unsafe { sys::psci_open_board(at, tree) },
            Board::Machine(tree, of, boot) => unsafe { sys::psci_open_machine(at, tree, of, boot) },
        })
        .map(|()| firmware)
    }

    fn answer(&self, core: u16, x0: u64, said: sys::Answer) -> Result<Answer, Refusal> {
        let stop = || written(|stop| unsafe { sys::psci_stop(self.0.at(), core, x0, stop) });
        let message = said.message.some.then_some(said.message.bytes);
        Act::of(&said, stop).map(|act| Answer { act, message, asked: said.asked })
    }

    /// A core calls.
    pub fn smc(&mut self, core: u16, [x0, x1, x2, x3]: [u64; 4]) -> Result<Answer, Refusal> {
        let said = written(|said| unsafe { sys::psci_smc(self.0.at(), core, x0, x1, x2, x3, said) });
        self.answer(core, x0, said)
    }

    /// A core enters, by the start that it finds.
    pub fn enter(&mut self, Start { core, life, number, cause }: Start) -> Result<Answer, Refusal> {
        let said = written(|said| unsafe { sys::psci_enter(self.0.at(), core, life, number, cause, said) });
        self.answer(core, 0, said)
    }

    /// Takes an acknowledgement: whether it was used, and not out of date.
    pub fn take(&mut self, ack: &[u8]) -> Result<bool, Refusal> {
        let said = unsafe { sys::psci_take(self.0.at(), ack.as_ptr(), ack.len()) };
        if said <= 1 {
            Ok(said == 0)
        } else {
            Err(said.into())
        }
    }

    /// One who polls this firmware.
    pub fn poller(&mut self) -> Result<Poller, OpenFault> {
        let poller = Poller(Held::empty(sys::psci_close_poller));
        done(unsafe { sys::psci_open_poller(self.0.at(), poller.0.at()) }).map(|()| poller)
    }
}

/// One who asks for statuses without the lock, of the firmware that it was opened for. Rust's heap wants no lock, so it
/// may also be dropped without one.
pub struct Poller(Held);

impl Poller {
    /// What AFFINITY_INFO answers for this affinity word: 0 on, 1 off, 2 pending, -2 where it names no core.
    pub fn poll(&mut self, affinity: u64) -> i32 {
        unsafe { sys::psci_poll(self.0.at(), affinity) }
    }
}
