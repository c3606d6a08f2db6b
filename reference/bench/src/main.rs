//! Times one loop on the proved emulator, on the plain interpreter of plain.rs and, where it is there, on id32 of SIMH, in turns,
//! and compares what each leaves. tools/bench builds everything and calls this.

mod plain;

use std::io::{BufRead, BufReader, Read, Write};
use std::process::{Child, ChildStdin, ChildStdout, Command, Stdio};
use std::time::{Duration, Instant};

use plain::{Machine, SilentBus};

/// AIS 1,1; LH 2,X'100'(3); STH 1,X'100'(3); BFBS 8,5. They stand at real X'1000'.
const LOOP: [u16; 6] = [0x2611, 0x4823, 0x0100, 0x4013, 0x0100, 0x2285];
const START: u32 = 0x1000;
const SEGMENT: u32 = 0x0010_1010;
const PLACES: usize = 0x8000;
const CAPACITY: usize = 4;
const MOST: u32 = 1_000_000;
/// The bits of the status but those of the register set, in which id32 runs the loop in set 0.
const KEPT: u32 = 0xff0f;

/// How the loop runs: with relocation and protection on, or with both off.
struct Mode {
    name: &'static str,
    status: u32,
    location: u32,
    index: u32,
}

const MODES: [Mode; 2] = [
    Mode {
        name: "protected",
        status: 0x45f0,
        location: 0,
        index: 0x40,
    },
    Mode {
        name: "free",
        status: 0x40f0,
        location: START,
        index: 0x1040,
    },
];

/// A machine that is ready for the loop.
fn ready(mode: &Mode) -> Machine<SilentBus> {
    let mut store = vec![0; PLACES];
    let start = START as usize / 2;
    store[start..start + LOOP.len()].copy_from_slice(&LOOP);
    let mut machine = Machine::new(store, SilentBus);
    machine.segments[0] = SEGMENT;
    machine.registers[1][3] = mode.index;
    machine.status = mode.status;
    machine.location = mode.location;
    machine
}

/// Runs the loop on the plain interpreter: the line that it leaves.
fn plain_line(mode: &Mode, steps: u32) -> String {
    let mut machine = ready(mode);
    let mut trace = Vec::with_capacity(CAPACITY);
    let mut made = 0;
    while made < steps {
        let count = (steps - made).min(MOST);
        let run = machine.run(count, &mut trace, CAPACITY);
        made += run;
        if run < count {
            break;
        }
    }
    let mut line = format!(
        "{made} steps, status {:08X}, location {:05X}, registers",
        machine.status, machine.location
    );
    for register in machine.registers[1] {
        line += &format!(" {register:08X}");
    }
    line
}

/// The proved emulator: a process that runs the loop for each line that it is sent, and answers with a line.
struct Proved {
    child: Child,
    input: ChildStdin,
    output: BufReader<ChildStdout>,
}

impl Proved {
    fn new(path: &str) -> Proved {
        let mut child = Command::new(path)
            .stdin(Stdio::piped())
            .stdout(Stdio::piped())
            .spawn()
            .expect("the proved program runs");
        let input = child.stdin.take().expect("its input is a pipe");
        let output = BufReader::new(child.stdout.take().expect("its output is a pipe"));
        Proved {
            child,
            input,
            output,
        }
    }

    fn line(&mut self, mode: &Mode, steps: u32) -> String {
        writeln!(self.input, "{} {steps}", mode.name).expect("the proved program reads");
        let mut line = String::new();
        self.output
            .read_line(&mut line)
            .expect("the proved program answers");
        line.trim_end().to_string()
    }

    fn end(self) {
        let Proved {
            mut child,
            input,
            output: _,
        } = self;
        drop(input);
        child.wait().expect("the proved program ends");
    }
}

/// What id32 prints for the loop, and the time that it takes with its start.
fn id32_text(path: &str, mode: &Mode, steps: u32) -> (String, Duration) {
    let begun = Instant::now();
    let mut child = Command::new(path)
        .stdin(Stdio::piped())
        .stdout(Stdio::piped())
        .spawn()
        .expect("id32 runs");
    let mut script = String::new();
    for (address, pair) in (START..).step_by(4).zip(LOOP.chunks(2)) {
        script += &format!("d {address:x} {:04x}{:04x}\n", pair[0], pair[1]);
    }
    script += &format!(
        "d psw {:x}\nd pc {:x}\nd r3 {:x}\nd macreg[0] {SEGMENT:x}\ns {steps}\n",
        mode.status & KEPT,
        mode.location,
        mode.index
    );
    script += "ex psw\nex pc\nex r1\nex r2\nex r3\nexit\n";
    let mut input = child.stdin.take().expect("its input is a pipe");
    input.write_all(script.as_bytes()).expect("id32 reads");
    drop(input);
    let mut text = String::new();
    child
        .stdout
        .take()
        .expect("its output is a pipe")
        .read_to_string(&mut text)
        .expect("id32 prints");
    let time = processor_time(&child.id().to_string()).unwrap_or_else(|| begun.elapsed());
    child.wait().expect("id32 ends");
    (text, time)
}

/// The number that id32 shows under a name.
fn shown(text: &str, name: &str) -> Option<u32> {
    text.lines().find_map(|line| {
        let value = line.trim_start_matches("sim> ").strip_prefix(name)?;
        u32::from_str_radix(value.strip_prefix(':')?.trim(), 16).ok()
    })
}

/// Whether what id32 shows is what a line has, in registers 1, 2 and 3, the condition code and the Location Counter.
fn agrees(text: &str, line: &str) -> bool {
    let words: Vec<&str> = line.split([' ', ',']).filter(|w| !w.is_empty()).collect();
    let number = |place: usize| {
        words
            .get(place)
            .and_then(|word| u32::from_str_radix(word, 16).ok())
    };
    let low = |value: Option<u32>| value.map(|v| v & KEPT);
    shown(text, "R1") == number(8)
        && shown(text, "R2") == number(9)
        && shown(text, "R3") == number(10)
        && low(shown(text, "PSW")) == low(number(3))
        && shown(text, "PC") == number(5)
}

/// The processor time that a process has used, where the system tells.
fn processor_time(process: &str) -> Option<Duration> {
    let text = std::fs::read_to_string(format!("/proc/{process}/schedstat")).ok()?;
    let nanoseconds = text.split(' ').next()?.parse().ok()?;
    Some(Duration::from_nanos(nanoseconds))
}

/// What a call gives, and the processor time that a process uses for it; where the system tells none, the time by the clock.
fn timed<T>(process: &str, call: impl FnOnce() -> T) -> (T, Duration) {
    // The system's count for a process that runs is brought up to date when it yields.
    std::thread::yield_now();
    let before = processor_time(process);
    let begun = Instant::now();
    let value = call();
    let elapsed = begun.elapsed();
    std::thread::yield_now();
    let time = match (before, processor_time(process)) {
        (Some(before), Some(after)) => after.saturating_sub(before),
        _ => elapsed,
    };
    (value, time)
}

fn per_step(time: Duration, steps: u32) -> f64 {
    time.as_secs_f64() * 1e9 / f64::from(steps)
}

fn load() -> String {
    std::fs::read_to_string("/proc/loadavg")
        .ok()
        .and_then(|text| text.split(' ').next().map(str::to_string))
        .unwrap_or_else(|| "unknown".to_string())
}

/// The least times of a run of so many steps: the proved emulator, the plain interpreter, and id32 with its start taken off.
struct Best {
    proved: Duration,
    plain: Duration,
    id32: Option<Duration>,
}

impl Best {
    fn print(&self, steps: u32) {
        println!("    proved {:7.3} ns a step", per_step(self.proved, steps));
        println!("    plain  {:7.3} ns a step", per_step(self.plain, steps));
        let proved = self.proved.as_secs_f64();
        println!(
            "    ratio proved / plain {:.3}",
            proved / self.plain.as_secs_f64()
        );
        if let Some(id32) = self.id32 {
            println!(
                "    id32   {:7.3} ns a step, its start taken off",
                per_step(id32, steps)
            );
            println!(
                "    ratio proved / id32  {:.3}",
                proved / id32.as_secs_f64()
            );
        }
    }
}

/// Runs the loop on each in turn, so many rounds: the least times; none if one leaves another line than the first round's plain run.
fn best(
    proved: &mut Proved,
    id32: Option<&str>,
    mode: &Mode,
    steps: u32,
    rounds: u32,
) -> Option<Best> {
    let process = proved.child.id().to_string();
    let line = plain_line(mode, steps);
    let mut best = Best {
        proved: Duration::MAX,
        plain: Duration::MAX,
        id32: id32.map(|_| Duration::MAX),
    };
    let mut start = Duration::MAX;
    for _ in 0..rounds {
        let (ours, time) = timed(&process, || proved.line(mode, steps));
        best.proved = best.proved.min(time);
        let (theirs, time) = timed("self", || plain_line(mode, steps));
        best.plain = best.plain.min(time);
        if ours != line || theirs != line {
            println!("    THEY DIFFER: {ours} and {theirs}");
            return None;
        }
        if let (Some(path), Some(least)) = (id32, best.id32) {
            start = start.min(id32_text(path, mode, 1).1);
            let (text, time) = id32_text(path, mode, steps);
            best.id32 = Some(least.min(time));
            if !agrees(&text, &line) {
                println!("    ID32 DIFFERS: {text}");
                return None;
            }
        }
    }
    best.id32 = best.id32.map(|time| time.saturating_sub(start));
    Some(best)
}

/// Compares and times a mode, by whole runs and by runs of a tenth, and prints what comes of it; whether all agreed.
fn compare(proved: &mut Proved, id32: Option<&str>, mode: &Mode, steps: u32, rounds: u32) -> bool {
    println!("{}", mode.name);
    println!("  proved {}", proved.line(mode, steps));
    println!("  plain  {}", plain_line(mode, steps));
    // The runs of a tenth find a quiet moment on a busy machine; id32's start would be a large part of them.
    for (steps, rounds, id32) in [(steps, rounds, id32), (steps / 10, rounds * 10, None)] {
        println!("  {steps} steps, best of {rounds} runs");
        let Some(best) = best(proved, id32, mode, steps, rounds) else {
            return false;
        };
        println!("    all agree");
        best.print(steps);
    }
    true
}

fn main() {
    let arguments: Vec<String> = std::env::args().collect();
    let [_, program, id32, steps, rounds] = arguments.as_slice() else {
        eprintln!("usage: bench PROVED-PROGRAM ID32-OR-NONE STEPS ROUNDS");
        std::process::exit(2);
    };
    let steps: u32 = steps.parse().expect("a number of steps");
    let rounds: u32 = rounds.parse().expect("a number of rounds");
    let id32 = Some(id32.as_str()).filter(|path| *path != "none");
    println!("load {}", load());
    let mut proved = Proved::new(program);
    let mut agreed = true;
    for mode in &MODES {
        agreed &= compare(&mut proved, id32, mode, steps, rounds);
    }
    proved.end();
    if id32.is_none() {
        println!("no id32 here: install Debian's package simh to have the ratio to it");
    }
    println!("load at the end {}", load());
    if !agreed {
        std::process::exit(1);
    }
}
