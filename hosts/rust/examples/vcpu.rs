//! The loop of a vCPU's thread. `Vcpu` stands for a hypervisor's: here its guest makes three calls.
use psci::{register, Act, Board, Guest};
use std::{sync::Condvar, sync::Mutex, thread};

/// What the hypervisor does for a core: it runs until it calls; its registers; as after reset at an address.
#[derive(Default)]
struct Vcpu {
    calls: Vec<[u64; 4]>,
    x0: u64,
}

impl Vcpu {
    fn run(&mut self) -> [u64; 4] {
        self.calls.remove(0)
    }

    fn reset_to(&mut self, core: u16, address: u64, context: u64) {
        println!("core {core} enters at {address:#x} with {context:#x}");
        self.x0 = context;
        self.calls = match core {
            0 => vec![[0xc400_0003, 1, 0x4000_1000, 7], [0x8400_0002, 0, 0, 0]], // CPU_ON of core 1, CPU_OFF
            _ => vec![[0x8400_0008, 0, 0, 0]],                                   // SYSTEM_OFF
        };
    }
}

/// One lock for the power, and what each core finds at its door: an act, in a life; life 0 ends all.
struct Machine {
    power: Mutex<(Guest, Vec<Option<Act>>, u32)>,
    bell: Condvar,
}

fn play(machine: &Machine, core: u16) {
    let mut vcpu = Vcpu::default();
    let mut held = machine.power.lock().unwrap();
    while held.2 != 0 {
        match held.1[core as usize].take() {
            None => {
                held = machine.bell.wait(held).unwrap(); // where the stop has `wakes`, an interrupt ends it: Guest::wake
                continue;
            }
            Some(Act::Enter(address, context)) => vcpu.reset_to(core, address, context),
            Some(Act::Return(_) | Act::Resume) => {}
            Some(Act::Stop(_)) => continue,
        }
        let life = held.2;
        drop(held);
        let x = vcpu.run();
        held = machine.power.lock().unwrap();
        let Ok(turn) = held.0.call(core, life, x) else { continue }; // the life has ended meanwhile
        if let Some(Act::Return(code)) = turn.caller {
            vcpu.x0 = register(code, x[0]);
        }
        held.1[core as usize] = turn.caller;
        if let Some((by, act)) = turn.entered {
            held.1[by.core as usize] = Some(act);
        }
        held.2 = turn.life;
        machine.bell.notify_all();
    }
}

fn main() {
    let board = Board::Text("2 exec 0x40000000-0x40100000 boot 0x40000000 starts 1000 lives 1");
    let (guest, turn) = Guest::open(board).expect("a board");
    let doors = vec![turn.entered.map(|it| it.1), None];
    let machine = Machine { power: Mutex::new((guest, doors, turn.life)), bell: Condvar::new() };
    thread::scope(|scope| {
        (0..2).for_each(|core| {
            drop({
                let machine = &machine;
                scope.spawn(move || play(machine, core))
            })
        })
    });
}
