//! The stored scripts, over a `Firmware` and the power controller of C, saved and loaded anew before each event.
use psci::{sys, Act, Answer, Board, Firmware, Frame, Start};
use std::{fmt::Write, fs};

struct Player<'a> {
    board: &'a str,
    firmware: Firmware,
    controller: sys::Place,
    /// Of each core how often it was started in this life, the start that it finds, and whether it runs.
    cores: Vec<(u32, Option<Start>, bool)>,
    messages: Vec<Frame>,
    acks: Vec<Frame>,
}

fn number(word: &str) -> u64 {
    word.strip_prefix("0x").map_or_else(|| word.parse(), |digits| u64::from_str_radix(digits, 16)).unwrap()
}

fn big(bytes: &[u8]) -> u64 {
    bytes.iter().fold(0, |sum, byte| sum << 8 | u64::from(*byte))
}

impl Player<'_> {
    fn of(board: &str) -> Player<'_> {
        let firmware = Firmware::open(Board::Text(board)).unwrap();
        let tree = board.split(" exec").next().unwrap();
        let many = tree.split(|it: char| !it.is_ascii_digit()).filter_map(|it| it.parse::<usize>().ok()).sum();
        let mut it = Player {
            board,
            firmware,
            controller: sys::Place::EMPTY,
            cores: vec![(0, None, false); many],
            messages: vec![],
            acks: vec![],
        };
        it.open();
        it.start(Start { core: 0, life: 1, number: 1, cause: 0 });
        it
    }

    fn open(&mut self) {
        assert_eq!(unsafe { sys::psci_ctl_open(&mut self.controller, self.board.as_ptr(), self.board.len()) }, 0);
    }

    fn moves(&mut self) {
        let mut words = vec![0; unsafe { sys::psci_ctl_save_size(&mut self.controller) }];
        assert_eq!(unsafe { sys::psci_ctl_save(&mut self.controller, words.as_mut_ptr(), words.len()) }, 0);
        self.open();
        assert_eq!(unsafe { sys::psci_ctl_load(&mut self.controller, words.as_ptr(), words.len()) }, 0);
    }

    fn start(&mut self, by: Start) {
        self.cores[by.core as usize] = (by.number, Some(by), false);
    }

    /// What the power controller has done, 1 a start, 3 or 4 the end of a life.
    fn carry_out(&mut self, call: impl FnOnce(&mut sys::Place, &mut sys::Reply)) -> sys::Reply {
        let mut said = unsafe { std::mem::zeroed() };
        call(&mut self.controller, &mut said);
        if let 3 | 4 = said.what {
            self.cores.fill((0, None, false));
        }
        if let 1 | 4 = said.what {
            self.start(said.start);
        }
        said
    }

    fn obey(&mut self, core: usize, said: Answer) -> String {
        (self.cores[core].1, self.cores[core].2) = (None, !matches!(said.act, Act::Stop(_)));
        let mut text = match said.act {
            Act::Return(code) => format!("return {code}"),
            Act::Stop(_) => "stop".into(),
            Act::Enter(address, context) => format!("enter {address:#x} {context:#x}"),
            Act::Resume => "resume 0".into(),
        };
        if let Some(it) = said.message {
            let kind = ["", "down", "start", "off", "reset"][it[2] as usize];
            let (at, life, by) = (self.messages.len(), big(&it[4..8]), big(&it[8..12]));
            write!(text, " #{at} {kind} {} life {life} number {by}", it[3]).unwrap();
            text += if it[12] > 0 { " parts" } else { "" };
            for part in it[13..].chunks(10).take(it[12].into()) {
                write!(text, " {}:{}:{}", part[0], part[1], big(&part[2..])).unwrap();
            }
            self.messages.push(it);
        }
        text
    }

    fn deliver(&mut self, at: usize) -> String {
        let message = self.messages[at];
        let ack = self.carry_out(|place, said| unsafe { sys::psci_ctl_deliver(place, message.as_ptr(), 53, said) }).ack;
        if !ack.some {
            return "ignored".into();
        }
        self.acks.push(ack.bytes);
        let stale = if ack.bytes[2] & 0x20 != 0 { " stale" } else { "" };
        format!("ack #{} applied {}{stale}", self.acks.len() - 1, ack.bytes[12])
    }

    fn kick(&mut self, word: &str, core: usize) -> String {
        let (number, by, runs) = self.cores[core];
        let said = match word {
            "reset" => self.carry_out(|place, said| unsafe { sys::psci_ctl_reset(place, core as u16, said) }),
            _ if runs || by.is_some() => return "ignored".into(),
            _ => self.carry_out(|place, said| unsafe { sys::psci_ctl_wake(place, core as u16, number, said) }),
        };
        if said.what == 1 {
            format!("started {}", said.start.number)
        } else {
            "ignored".into()
        }
    }

    fn event(&mut self, line: &str) -> String {
        let words: Vec<&str> = line.split(' ').collect();
        let at = number(words[1]) as usize;
        let mut x = [0; 4];
        words[2..].iter().zip(&mut x).for_each(|(word, x)| *x = number(word));
        match words[0] {
            "deliver" if at < self.messages.len() => self.deliver(at),
            "take" if at < self.acks.len() => {
                (if self.firmware.take(&self.acks[at]).unwrap() { "used" } else { "old" }).into()
            }
            "deliver" | "take" => "absent".into(),
            _ if at >= self.cores.len() => "absent".into(),
            "call" if self.cores[at].2 => self.firmware.smc(at as u16, x).map(|it| self.obey(at, it)).unwrap(),
            "enter" if self.cores[at].1.is_some() => {
                let by = self.cores[at].1.unwrap();
                self.firmware.enter(by).map(|it| self.obey(at, it)).unwrap()
            }
            "call" | "enter" => "ignored".into(),
            kick => self.kick(kick, at),
        }
    }
}

fn play(script: &str) -> String {
    let mut lines = script.lines().filter(|it| !it.is_empty() && !it.starts_with('#'));
    let mut player = Player::of(lines.next().unwrap().strip_prefix("board ").unwrap());
    let mut said = String::new();
    for (at, line) in lines.enumerate() {
        player.moves();
        writeln!(said, "{} {}", at + 1, player.event(line)).unwrap();
    }
    unsafe { sys::psci_ctl_close(&mut player.controller) };
    said
}

/// Those that are refused, or have bytes that are no letters, are of the reader of scripts.
#[test]
fn stored_scripts() {
    let mut many = 0;
    for file in fs::read_dir(concat!(env!("CARGO_MANIFEST_DIR"), "/../../tests/program/scripts")).unwrap() {
        let text = fs::read_to_string(file.unwrap().path()).unwrap();
        for case in text.split("\n== ").skip(1).filter(|it| !it.contains(['\\', '\r']) && !it.contains("\n-- err")) {
            let (name, rest) = case.split_once('\n').unwrap();
            let Some((script, out)) = rest.split_once("\n-- out\n") else { continue };
            assert_eq!(play(script), out.trim_end().to_string() + "\n", "{name}");
            many += 1;
        }
    }
    assert!(many > 200, "{many}");
}
