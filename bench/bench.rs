//! The proved library and the hand-written one, side by side in one process.
//!
//!   bench time PROVED_WELLREPORT HAND_WELLREPORT INPUT   compares the answers, then times everything
//!   bench check N                                        compares the answers on N damaged states of each monitor
//!   bench count CALL MONITOR WHO N                       does one thing N times, for callgrind
//!   bench session MONITOR                                writes the bytes of the session that is measured
//!   bench wild MONITOR                                   writes those of the wild session

#[path = "../include/sukepina.rs"]
mod sukepina;

use std::hint::black_box;
use std::io::{self, Write};
use std::process::{exit, Command, Stdio};
use std::time::Instant;
use sukepina::{raw, Cell, Core, Echo, Plate, Step, LINE_ROOM, RECORD_LEN, STANDARD_PLATE};

const RECORDS: usize = 3_200;
const ROUNDS: usize = 200;
const SESSIONS_PER_ROUND: usize = 10;
const SPAWNS: usize = 1_000;
const MOUNT: f32 = 50.0;
const REST: u64 = 60_000;

#[link(name = "hand", kind = "static")]
unsafe extern "C" {
    fn hand_cell_set_up_raw(monitor: *mut Cell, plate: *const Plate) -> u32;
    fn hand_cell_step_raw(monitor: *mut Cell, step: *const Step) -> u32;
    fn hand_cell_feed_raw(monitor: *mut Cell, bytes: *const u8, len: usize, place: *mut usize) -> u32;
    fn hand_cell_readout_raw(monitor: *const Cell, out: *mut u8, room: usize, len: *mut usize) -> u32;
    fn hand_cell_lines_raw(
        monitor: *mut Cell,
        bytes: *const u8,
        bytes_len: usize,
        place: *mut usize,
        out: *mut u8,
        room: usize,
        written: *mut usize,
    ) -> u32;
    fn hand_echo_set_up_raw(monitor: *mut Echo, plate: *const Plate, mount: f32, rest: u64) -> u32;
    fn hand_echo_step_raw(monitor: *mut Echo, step: *const Step) -> u32;
    fn hand_echo_feed_raw(monitor: *mut Echo, bytes: *const u8, len: usize, place: *mut usize) -> u32;
    fn hand_echo_readout_raw(monitor: *const Echo, out: *mut u8, room: usize, len: *mut usize) -> u32;
    fn hand_echo_lines_raw(
        monitor: *mut Echo,
        bytes: *const u8,
        bytes_len: usize,
        place: *mut usize,
        out: *mut u8,
        room: usize,
        written: *mut usize,
    ) -> u32;
}

/// One library's calls on one monitor.
struct Calls<M: 'static> {
    set_up: fn(&mut M) -> u32,
    step: unsafe extern "C" fn(*mut M, *const Step) -> u32,
    feed: unsafe extern "C" fn(*mut M, *const u8, usize, *mut usize) -> u32,
    readout: unsafe extern "C" fn(*const M, *mut u8, usize, *mut usize) -> u32,
    lines: unsafe extern "C" fn(*mut M, *const u8, usize, *mut usize, *mut u8, usize, *mut usize) -> u32,
}

static CELL_PROVED: Calls<Cell> = Calls {
    set_up: |monitor| unsafe { raw::sukepina_cell_set_up_raw(monitor, &STANDARD_PLATE) },
    step: raw::sukepina_cell_step_raw,
    feed: raw::sukepina_cell_feed_raw,
    readout: raw::sukepina_cell_readout_raw,
    lines: raw::sukepina_cell_lines_raw,
};

static CELL_HAND: Calls<Cell> = Calls {
    set_up: |monitor| unsafe { hand_cell_set_up_raw(monitor, &STANDARD_PLATE) },
    step: hand_cell_step_raw,
    feed: hand_cell_feed_raw,
    readout: hand_cell_readout_raw,
    lines: hand_cell_lines_raw,
};

static ECHO_PROVED: Calls<Echo> = Calls {
    set_up: |monitor| unsafe { raw::sukepina_echo_set_up_raw(monitor, &STANDARD_PLATE, MOUNT, REST) },
    step: raw::sukepina_echo_step_raw,
    feed: raw::sukepina_echo_feed_raw,
    readout: raw::sukepina_echo_readout_raw,
    lines: raw::sukepina_echo_lines_raw,
};

static ECHO_HAND: Calls<Echo> = Calls {
    set_up: |monitor| unsafe { hand_echo_set_up_raw(monitor, &STANDARD_PLATE, MOUNT, REST) },
    step: hand_echo_step_raw,
    feed: hand_echo_feed_raw,
    readout: hand_echo_readout_raw,
    lines: hand_echo_lines_raw,
};

impl<M: Clone + Default> Calls<M> {
    fn new_monitor(&self) -> M {
        let mut monitor = M::default();
        assert_eq!((self.set_up)(&mut monitor), 0);
        monitor
    }

    fn step(&self, monitor: &mut M, step: &Step) -> u32 {
        unsafe { (self.step)(monitor, step) }
    }

    fn feed(&self, monitor: &mut M, bytes: &[u8], place: &mut usize) -> u32 {
        unsafe { (self.feed)(monitor, bytes.as_ptr(), bytes.len(), place) }
    }

    fn readout(&self, monitor: &M, out: &mut [u8], len: &mut usize) -> u32 {
        unsafe { (self.readout)(monitor, out.as_mut_ptr(), out.len(), len) }
    }

    fn lines(&self, monitor: &mut M, bytes: &[u8], place: &mut usize, out: &mut [u8], written: &mut usize) -> u32 {
        unsafe { (self.lines)(monitor, bytes.as_ptr(), bytes.len(), place, out.as_mut_ptr(), out.len(), written) }
    }
}

// The session: a day's work of a monitor in small, 250 ms a step.

const POWER_ON: u32 = 1;
const RESET_DOWN: u32 = 2;
const TEST_DOWN: u32 = 4;
const MEMORY_FAILED: u32 = 8;
const TICK: u64 = 250;

struct Generator {
    seed: u64,
    time: u64,
    level: f64, // cm
    steps: Vec<(u64, f64, u32)>,
}

impl Generator {
    fn random(&mut self, below: u64) -> u64 {
        self.seed = self.seed.wrapping_mul(6_364_136_223_846_793_005).wrapping_add(1_442_695_040_888_963_407);
        (self.seed >> 33) % below
    }

    /// Steps during which the level wanders around `aim`.
    fn run(&mut self, count: usize, facts: u32, aim: f64) {
        for _ in 0..count {
            let noise = self.random(1_000) as f64 / 2_500.0 - 0.2;
            self.level += (aim - self.level) * 0.25 + noise;
            self.time += TICK;
            self.steps.push((self.time, self.level, facts));
        }
    }

    fn start(&mut self) {
        self.run(3, 0, 20.0);
        self.run(8, POWER_ON, 20.0);
        self.reset();
    }

    fn reset(&mut self) {
        self.run(15, POWER_ON | RESET_DOWN, 20.0);
    }

    /// Operating, the level moving between the limits.
    fn operate(&mut self, count: usize) {
        for _ in 0..count / 20 {
            let aim = 15.5 + self.random(90) as f64 / 10.0;
            self.run(20, POWER_ON, aim);
        }
    }
}

fn steps() -> Vec<(u64, f64, u32)> {
    let mut g = Generator { seed: 1, time: 1_000_000, level: 20.0, steps: Vec::new() };
    g.start();
    while g.steps.len() < RECORDS {
        g.operate(240);
        let aim = if g.random(2) == 0 { 13.6 } else { 26.4 };
        g.run(16, POWER_ON, aim); // out of limits
        g.run(12, POWER_ON, 20.0);
        g.reset();
        g.operate(160);
        g.run(4, POWER_ON | TEST_DOWN, 20.0);
        g.run(60, POWER_ON, 20.0);
        g.reset();
        g.operate(200);
        match g.random(3) {
            0 => g.run(20, POWER_ON, 40.0), // past the mark, out of the cell's scale
            1 => {
                g.run(1, POWER_ON | MEMORY_FAILED, 20.0);
                g.run(15, POWER_ON, 20.0);
            }
            _ => {
                g.time += 2 * TICK; // a late step
                g.run(16, POWER_ON, 20.0);
            }
        }
        g.start();
    }
    g.steps.truncate(RECORDS);
    g.steps
}

/// Anything goes: buttons at random, uneven steps, late ones, the time going back, any fact and any level.
fn wild_steps() -> Vec<(u64, f64, u32)> {
    let mut g = Generator { seed: 5, time: 1_000_000, level: 20.0, steps: Vec::new() };
    while g.steps.len() < RECORDS {
        let facts = match g.random(40) {
            0 => g.random(32) as u32,
            1..4 => 0,
            4..18 => POWER_ON | RESET_DOWN,
            18 | 19 => POWER_ON | TEST_DOWN,
            20 => POWER_ON | RESET_DOWN | TEST_DOWN,
            _ => POWER_ON,
        };
        let aim = [20.0, 20.0, 20.0, 20.0, 16.0, 24.0, 13.8, 26.2][g.random(8) as usize];
        for _ in 0..=g.random(if facts & POWER_ON == 0 { 3 } else { 30 }) {
            g.run(1, facts, aim);
            match g.random(2_000) {
                0 => g.time -= g.random(2_000),
                1 => g.time += g.random(2_000),
                2..400 => g.time -= TICK - 1 - g.random(150), // two steps in a short time
                400..405 => g.level += 10.0,
                _ => g.time += g.random(TICK),
            }
        }
    }
    g.steps.truncate(RECORDS);
    g.steps
}

fn cell_word(level: f64) -> u32 {
    ((level - 12.73372) / 14.53242 * 255.0).max(0.0) as u32
}

fn echo_word(level: f64) -> u32 {
    (MOUNT - level as f32).to_bits()
}

struct Session {
    steps: Vec<Step>,
    bytes: Vec<u8>,
}

impl Session {
    fn new(steps: Vec<(u64, f64, u32)>, word: fn(f64) -> u32) -> Session {
        let steps: Vec<Step> =
            steps.iter().map(|&(time, level, facts)| Step { time, a: word(level), b: 0, facts }).collect();
        let mut bytes = Vec::with_capacity(RECORDS * RECORD_LEN);
        for step in &steps {
            bytes.extend([0x57, 0x4C, step.facts as u8]);
            bytes.extend(step.time.to_be_bytes());
            bytes.extend(step.a.to_be_bytes());
            bytes.extend(step.b.to_be_bytes());
        }
        Session { steps, bytes }
    }
}

// What is measured: each goes over the session once.

#[derive(Clone, Copy)]
enum Call {
    Step,
    Feed,
    Readout,
    Lines,
}

const CALLS: [(Call, &str); 4] =
    [(Call::Step, "step"), (Call::Feed, "feed"), (Call::Readout, "readout"), (Call::Lines, "lines")];

struct Bench<M: 'static> {
    session: Session,
    states: Vec<M>, // after each step
    out: Vec<u8>,
}

impl<M: Clone + Default> Bench<M> {
    fn new(calls: &Calls<M>, word: fn(f64) -> u32) -> Bench<M> {
        let session = Session::new(steps(), word);
        let mut monitor = calls.new_monitor();
        let mut states = Vec::with_capacity(RECORDS);
        for step in &session.steps {
            assert_eq!(calls.step(&mut monitor, step), 0);
            states.push(monitor.clone());
        }
        Bench { session, states, out: vec![0; RECORDS * LINE_ROOM] }
    }

    fn run(&mut self, call: Call, calls: &Calls<M>) {
        let (bytes, out) = (&self.session.bytes[..], &mut self.out[..]);
        match call {
            Call::Step => {
                let mut monitor = calls.new_monitor();
                for step in &self.session.steps {
                    assert_eq!(calls.step(&mut monitor, step), 0);
                }
                black_box(&monitor);
            }
            Call::Feed => {
                let mut monitor = calls.new_monitor();
                let mut place = 0;
                while place < bytes.len() {
                    assert_eq!(calls.feed(&mut monitor, bytes, &mut place), 0);
                }
                black_box(&monitor);
            }
            Call::Readout => {
                let mut len = 0;
                for state in &self.states {
                    assert_eq!(calls.readout(state, &mut out[..LINE_ROOM], &mut len), 0);
                }
                black_box((&out, len));
            }
            Call::Lines => {
                let mut monitor = calls.new_monitor();
                let (mut place, mut written) = (0, 0);
                assert_eq!(calls.lines(&mut monitor, bytes, &mut place, out, &mut written), 0);
                assert_eq!(place, bytes.len());
                black_box((&out, written));
            }
        }
    }

    /// The best time of one record or readout, in ns, of the two libraries in turn.
    fn time(&mut self, call: Call, proved: &Calls<M>, hand: &Calls<M>) -> (f64, f64) {
        let mut best = [f64::MAX; 2];
        for round in 0..ROUNDS {
            for turn in 0..2 {
                let who = (round + turn) % 2;
                let begin = Instant::now();
                for _ in 0..SESSIONS_PER_ROUND {
                    self.run(call, if who == 0 { proved } else { hand });
                }
                let each = begin.elapsed().as_nanos() as f64 / (SESSIONS_PER_ROUND * RECORDS) as f64;
                best[who] = best[who].min(each);
            }
        }
        (best[0], best[1])
    }
}

// Both libraries must give the same answers, states and lines.

fn same<T: PartialEq + std::fmt::Debug>(what: &str, proved: T, hand: T) {
    if proved != hand {
        eprintln!("bench: {what} differs\nproved       {proved:?}\nhand-written {hand:?}");
        exit(1);
    }
}

fn compare<M>(name: &str, proved: &Calls<M>, hand: &Calls<M>, bytes: &[u8])
where
    M: Clone + Default + PartialEq + std::fmt::Debug,
{
    let (mut p, mut h) = (proved.new_monitor(), hand.new_monitor());
    same(name, &p, &h);
    let mut at = 0;
    while at <= bytes.len() {
        let (mut p_place, mut h_place) = (at, at);
        let answers = (proved.feed(&mut p, bytes, &mut p_place), hand.feed(&mut h, bytes, &mut h_place));
        same(&format!("{name}: feed's answer at {at}"), answers.0, answers.1);
        same(&format!("{name}: the place after {at}"), p_place, h_place);
        same(&format!("{name}: the state after the record at {at}"), &p, &h);
        let (mut p_out, mut h_out) = ([0; LINE_ROOM], [0; LINE_ROOM]);
        let (mut p_len, mut h_len) = (0, 0);
        let answers = (proved.readout(&p, &mut p_out, &mut p_len), hand.readout(&h, &mut h_out, &mut h_len));
        same(&format!("{name}: readout's answer after {at}"), answers.0, answers.1);
        same(&format!("{name}: the line after {at}"), &p_out[..p_len], &h_out[..h_len]);
        at += RECORD_LEN;
    }
    let lines = |calls: &Calls<M>| {
        let mut monitor = calls.new_monitor();
        let mut out = vec![0; (bytes.len() / RECORD_LEN + 2) * LINE_ROOM];
        let (mut place, mut written) = (0, 0);
        let answer = calls.lines(&mut monitor, bytes, &mut place, &mut out, &mut written);
        (answer, place, written, monitor, out)
    };
    same(&format!("{name}: lines"), lines(proved), lines(hand));
}

/// A few bits turned over, and the last record cut.
fn damaged(mut bytes: Vec<u8>) -> Vec<u8> {
    let mut g = Generator { seed: 7, time: 0, level: 0.0, steps: Vec::new() };
    for _ in 0..bytes.len() / 4_000 {
        let at = g.random(bytes.len() as u64) as usize;
        bytes[at] ^= 1 << g.random(8);
    }
    bytes.truncate(bytes.len() - 5);
    bytes
}

// Damaged states: numbers of other states of the session, or odd ones, in up to three places. A monitor is a row of
// 32-bit words, halves of 64-bit ones among them.

const PADDING: usize = std::mem::offset_of!(Core, figure) / 4 + 1; // the word behind the core

/// The places of a monitor's words, up to its last number.
fn words(last: usize) -> impl Iterator<Item = usize> {
    (0..=last).filter(|&word| word != PADDING)
}

fn numbers<M>(state: &M, last: usize) -> Vec<u32> {
    // Every word but the padding is a number's.
    words(last).map(|word| unsafe { (&raw const *state).cast::<u32>().add(word).read() }).collect()
}

fn damage<M: Clone>(g: &mut Generator, states: &[M], last: usize) -> M {
    let mut state = states[g.random(states.len() as u64) as usize].clone();
    for _ in 0..=g.random(3) {
        let other = numbers(&states[g.random(states.len() as u64) as usize], last);
        let own = numbers(&state, last);
        let at = g.random(own.len() as u64) as usize;
        let number = match g.random(8) {
            0 => g.random(7) as u32,
            1 => own[at].wrapping_add(1),
            2 => own[at].wrapping_sub(1),
            3 => own[at] ^ 1 << g.random(32),
            4 => u32::MAX,
            _ => other[at],
        };
        let word = words(last).nth(at).expect("a word");
        unsafe { (&raw mut state).cast::<u32>().add(word).write(number) };
    }
    state
}

fn check<M>(name: &str, proved: &Calls<M>, hand: &Calls<M>, bench: &Bench<M>, last: usize, count: usize)
where
    M: Clone + Default + std::fmt::Debug,
{
    const ROOM: u64 = 150; // for two lines, or one, or none
    let mut g = Generator { seed: 3, time: 0, level: 0.0, steps: Vec::new() };
    let mut accepted = 0;
    for _ in 0..count {
        let state = damage(&mut g, &bench.states, last);
        let mut step = bench.session.steps[g.random(RECORDS as u64) as usize];
        step.facts = g.random(33) as u32;
        let place = g.random(RECORDS as u64) as usize * RECORD_LEN;
        let bytes = &bench.session.bytes[..(place + 2 * RECORD_LEN - 1).min(bench.session.bytes.len())];
        let room = g.random(ROOM) as usize;
        let results = |calls: &Calls<M>| {
            let mut after = [state.clone(), state.clone(), state.clone()];
            let (mut line, mut lines) = ([0; ROOM as usize], [0; ROOM as usize]);
            let (mut feed_place, mut lines_place, mut len, mut written) = (place, place, 0, 0);
            let answers = [
                calls.step(&mut after[0], &step),
                calls.feed(&mut after[1], bytes, &mut feed_place),
                calls.readout(&state, &mut line[..room], &mut len),
                calls.lines(&mut after[2], bytes, &mut lines_place, &mut lines[..room], &mut written),
            ];
            (answers, [feed_place, lines_place, len, written], after.map(|state| numbers(&state, last)), line, lines)
        };
        let (p, h) = (results(proved), results(hand));
        accepted += usize::from(p.0[1] == 0);
        if p != h {
            eprintln!("bench: {name}: step, feed, readout and lines answer {:?} and {:?} on", p.0, h.0);
            eprintln!("{state:#?}\n{step:?}, place {place}, room {room}");
        }
        same(&format!("{name}: what comes of a damaged state"), p, h);
    }
    println!("{name}: the same on {count} damaged states, {accepted} of them accepted");
}

// The whole program.

fn report(program: &str, input: &str) -> Vec<u8> {
    let file = std::fs::File::open(input).expect("the input");
    Command::new(program).stdin(file).stderr(Stdio::inherit()).output().expect("the program").stdout
}

fn time_program(program: &str, input: &str) -> f64 {
    let file = std::fs::File::open(input).expect("the input");
    let begin = Instant::now();
    let status = Command::new(program).stdin(file).stdout(Stdio::null()).status().expect("the program");
    assert!(status.success());
    begin.elapsed().as_nanos() as f64
}

fn print_row(name: &str, (proved, hand): (f64, f64)) {
    println!("{name:<34}{proved:>12.1}{hand:>14.1}{:>8.2}", hand / proved);
}

fn time_all(proved_program: &str, hand_program: &str, input: &str) {
    let mut cell = Bench::new(&CELL_PROVED, cell_word);
    let mut echo = Bench::new(&ECHO_PROVED, echo_word);
    compare("cell", &CELL_PROVED, &CELL_HAND, &cell.session.bytes);
    compare("echo", &ECHO_PROVED, &ECHO_HAND, &echo.session.bytes);
    compare("cell, wild", &CELL_PROVED, &CELL_HAND, &damaged(Session::new(wild_steps(), cell_word).bytes));
    compare("echo, wild", &ECHO_PROVED, &ECHO_HAND, &damaged(Session::new(wild_steps(), echo_word).bytes));
    same("wellreport", report(proved_program, input), report(hand_program, input));

    println!("{:<34}{:>12}{:>14}{:>8}", "best time, ns", "proved", "hand-written", "ratio");
    for (call, name) in CALLS {
        print_row(&format!("cell {name}, one record"), cell.time(call, &CELL_PROVED, &CELL_HAND));
        print_row(&format!("echo {name}, one record"), echo.time(call, &ECHO_PROVED, &ECHO_HAND));
    }

    let mut times = [Vec::new(), Vec::new()];
    for spawn in 0..SPAWNS {
        for turn in 0..2 {
            let who = (spawn + turn) % 2;
            times[who].push(time_program(if who == 0 { proved_program } else { hand_program }, input));
        }
    }
    let [proved, hand] = times.map(|mut all| {
        all.sort_by(f64::total_cmp);
        (all[0], all[all.len() / 2])
    });
    print_row("wellreport, 3,200 records, best", (proved.0, hand.0));
    print_row("wellreport, 3,200 records, median", (proved.1, hand.1));
    println!();
    println!("size of a monitor: cell {} bytes, echo {} bytes, the same in both", size_of::<Cell>(), size_of::<Echo>());
}

fn usage() -> ! {
    eprintln!("bench: time PROVED HAND INPUT, check N, count CALL MONITOR WHO N, session MONITOR or wild MONITOR");
    exit(2)
}

fn main() -> io::Result<()> {
    let arguments: Vec<String> = std::env::args().skip(1).collect();
    match arguments.iter().map(String::as_str).collect::<Vec<_>>()[..] {
        ["time", proved, hand, input] => time_all(proved, hand, input),
        ["check", n] => {
            let count = n.parse().unwrap_or_else(|_| usage());
            let (cell, echo) = (Bench::new(&CELL_PROVED, cell_word), Bench::new(&ECHO_PROVED, echo_word));
            check("cell", &CELL_PROVED, &CELL_HAND, &cell, std::mem::offset_of!(Cell, closed) / 4, count);
            check("echo", &ECHO_PROVED, &ECHO_HAND, &echo, std::mem::offset_of!(Echo, drive) / 4, count);
        }
        ["count", call, monitor, who, n] => {
            let call = CALLS.iter().find(|(_, name)| *name == call).unwrap_or_else(|| usage()).0;
            let sessions = n.parse::<usize>().unwrap_or_else(|_| usage()) / RECORDS;
            let run_cell = |calls| {
                let mut bench = Bench::new(&CELL_HAND, cell_word);
                (0..sessions).for_each(|_| bench.run(call, calls));
            };
            let run_echo = |calls| {
                let mut bench = Bench::new(&ECHO_HAND, echo_word);
                (0..sessions).for_each(|_| bench.run(call, calls));
            };
            match (monitor, who) {
                ("cell", "proved") => run_cell(&CELL_PROVED),
                ("cell", "hand") => run_cell(&CELL_HAND),
                ("echo", "proved") => run_echo(&ECHO_PROVED),
                ("echo", "hand") => run_echo(&ECHO_HAND),
                _ => usage(),
            }
        }
        ["session", "cell"] => io::stdout().write_all(&Session::new(steps(), cell_word).bytes)?,
        ["session", "echo"] => io::stdout().write_all(&Session::new(steps(), echo_word).bytes)?,
        ["wild", "cell"] => io::stdout().write_all(&damaged(Session::new(wild_steps(), cell_word).bytes))?,
        ["wild", "echo"] => io::stdout().write_all(&damaged(Session::new(wild_steps(), echo_word).bytes))?,
        _ => usage(),
    }
    Ok(())
}
