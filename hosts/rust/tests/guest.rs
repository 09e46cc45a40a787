//! A drawn guest beside one that is opened anew and loaded before each turn; refusals; pollers on threads.
use psci::{register, Act, Board, Firmware, Guest, LoadFault, OpenFault, Refusal, Start, Turn};
use std::{sync::Mutex, thread};

const BOARD: &str = "(2 2) exec 0x40000000-0x40100000 boot 0x40000000 starts 1000 lives 65535";
const ON: u64 = 0xc400_0003;

/// What the drawn number makes of a guest.
fn act(guest: &mut Guest, drawn: u32, life: u32) -> Result<Turn, Refusal> {
    let (core, word) = ((drawn >> 28) as u16 % 4, [0, 1, 0x100, 0x101][(drawn >> 12) as usize % 4]);
    match drawn >> 16 & 15 {
        0..=3 => guest.call(core, life, [ON, word, 0x4000_1000, 7]),
        4..=6 => guest.call(core, life, [0xc400_0001, 0x0101_0033, 0x4000_2000, 9]),
        7..=8 if core != 0 => guest.call(core, life, [0x8400_0002, 0, 0, 0]),
        9..=11 => guest.wake(core),
        12 if core != 0 => guest.reset(core),
        13 if drawn % 5 == 0 => guest.call(core, life, [0x8400_0009, 0, 0, 0]),
        _ => guest.call(core, life, [0xc400_0004, word, 0, 0]),
    }
}

#[test]
fn a_guest_moves_before_each_turn() {
    let (mut guest, first) = Guest::open(Board::Text(BOARD)).unwrap();
    assert_eq!(first.entered.unwrap().1, Act::Enter(0x4000_0000, 0));
    let (mut life, mut stops, mut entries, mut drawn) = (first.life, 0, 0, 1u32);
    for _ in 0..2000 {
        drawn = drawn.wrapping_mul(1_664_525).wrapping_add(1_013_904_223);
        let mut other = Guest::open(Board::Text(BOARD)).unwrap().0;
        other.load(&guest.save()).unwrap();
        let turn = act(&mut guest, drawn, life);
        assert_eq!((act(&mut other, drawn, life), other.save()), (turn, guest.save()));
        life = turn.map_or(life, |it| it.life);
        stops += turn.is_ok_and(|it| matches!(it.caller, Some(Act::Stop(_)))) as u32;
        entries += turn.is_ok_and(|it| it.entered.is_some()) as u32;
    }
    assert!(stops > 100 && entries > 100 && life > 2, "{stops} {entries} {life}");
}

#[test]
fn refusals() {
    assert_eq!(Guest::open(Board::Text("none")).err(), Some(OpenFault::Grammar));
    assert_eq!(Firmware::open(Board::Text(&BOARD.replace("2 2", "2 17"))).err(), Some(OpenFault::TooWide));
    let (mut guest, turn) = Guest::open(Board::Text(BOARD)).unwrap();
    assert_eq!(guest.call(4, 1, [0; 4]), Err(Refusal::NoCore));
    assert_eq!(guest.call(0, turn.life + 1, [0; 4]), Err(Refusal::NotRunning));
    assert_eq!((guest.status(0, 1), guest.hw(0, 0), guest.hw(9, 0)), (Ok(1), Ok(0), Err(Refusal::NoCore)));
    let denied = guest.call(0, turn.life, [ON, 9, 0x4000_1000, 0]).unwrap();
    assert_eq!((denied.caller, guest.cores()), (Some(Act::Return(-2)), 4));
    assert_eq!((register(-2, ON), register(-2, 0x8400_0003)), (u64::MAX - 1, 0xffff_fffe));
    let words = guest.save();
    assert_eq!(guest.load(&words[..9]), Err(LoadFault::Length));
    for at in 0..words.len() {
        let mut wrong = words.clone();
        wrong[at] ^= 1;
        assert!(guest.load(&wrong).is_err(), "{at}");
        assert_eq!(guest.save(), words);
    }
}

#[test]
fn standby_and_a_reset() {
    let (mut guest, turn) = Guest::open(Board::Text(BOARD)).unwrap();
    assert!(
        matches!(guest.call(0, turn.life, [0xc400_0001, 1, 0, 0]).unwrap().caller, Some(Act::Stop(stop)) if stop.wakes)
    );
    assert_eq!((guest.status(0, 0), guest.hw(0, 0)), (Ok(0), Ok(2)));
    assert_eq!(guest.wake(0).unwrap().entered.map(|it| (it.0.cause, it.1)), Some((2, Act::Resume)));
    assert_eq!(guest.reset(1).unwrap().entered.map(|it| it.0.cause), Some(3));
}

#[repr(C)]
struct Block {
    ok: usize,
    block: *mut u8,
}

extern "C" {
    fn rattle_alloc(size: usize, align: usize) -> Block;
    fn rattle_realloc(block: *mut u8, kept: usize, size: usize, align: usize) -> Block;
    fn rattle_dealloc(block: *mut u8);
}

/// The library asks this of its user, and no call here makes it ask.
#[test]
fn a_block_that_grows_keeps_its_bytes() {
    unsafe {
        let made = rattle_alloc(3, 8);
        made.block.write_bytes(7, 3);
        let grown = rattle_realloc(made.block, 3, 100, 16);
        assert_eq!(
            (grown.ok, grown.block as usize % 16, std::slice::from_raw_parts(grown.block, 3)),
            (1, 0, &[7; 3][..])
        );
        rattle_dealloc(grown.block);
        assert_eq!((rattle_alloc(1, 32).ok, rattle_alloc(usize::MAX, 1).ok), (0, 0));
    }
}

#[test]
fn pollers_take_no_lock() {
    let firmware = Mutex::new(Firmware::open(Board::Text(BOARD)).unwrap());
    let mut last = firmware.lock().unwrap().poller().unwrap();
    let boot = Start { core: 0, life: 1, number: 1, cause: 0 };
    firmware.lock().unwrap().enter(boot).unwrap();
    assert_eq!(firmware.lock().unwrap().enter(boot), Err(Refusal::OldStart));
    thread::scope(|scope| {
        for _ in 0..4 {
            let mut poller = firmware.lock().unwrap().poller().unwrap();
            scope.spawn(move || while poller.poll(1) != 2 {});
        }
        assert_eq!(firmware.lock().unwrap().poller().unwrap().poll(9), -2);
        firmware.lock().unwrap().smc(0, [ON, 1, 0x4000_1000, 0]).unwrap();
    });
    drop(firmware);
    assert_eq!(last.poll(1), 2); // what it reads is its own, too
}
