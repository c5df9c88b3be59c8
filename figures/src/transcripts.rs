//! The two transcript programs on the same generated lines.

use crate::goals::Goals;
use crate::profile::Profile;
use crate::programs::{Input, Program};
use crate::text::paragraph;
use second::generate::Generator;
use std::fs::{self, File};
use std::io::{self, BufWriter, Write};
use std::path::Path;

const SEED: u64 = 1;
const SIZES: [(usize, &str); 3] = [(10_000, "10 thousand"), (100_000, "100 thousand"), (1_000_000, "a million")];
const RUNS: usize = 5;
const SPEED: f64 = 1.5;
const FLAT: f64 = 1.1;
const MOST_MEMORY: u64 = 8 * 1024; // kB
const LONG_LINE: usize = 16_000_000;

const OTHER_WORK: &str = "The instructions per line stay the same; the machine was shared, and its times differ by more than
    that from run to run.";

/// The best times of the two, in seconds.
struct Times {
    ours: f64,
    theirs: f64,
}

impl Times {
    fn ratio(&self) -> f64 {
        self.theirs / self.ours
    }
}

pub fn measure(transcript: &Program, second: &Program, folder: &Path, goals: &mut Goals) -> io::Result<()> {
    let inputs = generated(folder)?;
    if transcript.answers(&inputs[1])? != second.answers(&inputs[1])? {
        return Err(io::Error::other("the two programs answer differently"));
    }
    let mut times: Vec<Times> = inputs.iter().map(|_| Times { ours: f64::INFINITY, theirs: f64::INFINITY }).collect();
    let mut by_line = Times { ours: f64::INFINITY, theirs: f64::INFINITY };
    for _ in 0..RUNS {
        for (best, input) in times.iter_mut().zip(&inputs) {
            best.ours = best.ours.min(transcript.seconds(input)?);
            best.theirs = best.theirs.min(second.seconds(input)?);
        }
        by_line.ours = by_line.ours.min(transcript.seconds_by_line(&inputs[0])?);
        by_line.theirs = by_line.theirs.min(second.seconds_by_line(&inputs[0])?);
    }
    let profile = Profile::of(transcript, &inputs[2], &inputs[0], folder);
    print_speed(transcript, second, &inputs, &times, &by_line);
    let speed = times[2].ratio();
    goals.add(
        &format!("Transcript lines per second, {} lines, at least {SPEED} times", inputs[2].name),
        speed >= SPEED,
        format!("{speed:.2} times"),
        &profile.sentence(),
    );
    profile.print(&inputs[2], &inputs[0]);
    print_flatness(transcript, &inputs, &times, goals);
    print_memory(transcript, &inputs, folder, goals)
}

/// The first 10 thousand, 100 thousand and a million of the same lines.
fn generated(folder: &Path) -> io::Result<Vec<Input>> {
    let mut inputs = Vec::new();
    for (lines, name) in SIZES {
        let file = folder.join(format!("{lines}.in"));
        let mut out = BufWriter::new(File::create(&file)?);
        for line in Generator::new(SEED, SIZES[2].0).take(lines) {
            out.write_all(&line)?;
            out.write_all(b"\n")?;
        }
        out.flush()?;
        inputs.push(Input { file, name: name.to_string(), lines });
    }
    Ok(inputs)
}

fn print_speed(transcript: &Program, second: &Program, inputs: &[Input], times: &[Times], by_line: &Times) {
    println!("\n## Transcript lines per second\n");
    paragraph(&format!(
        "`transcript` against `second-transcript`, both built for release, with the same certificates and the same
        answers, on the same generated lines (seed {SEED}): from a file, output to /dev/null, wall time of the whole run; in the
        last row by pipes, each line written when the one before it has been answered. The best of {RUNS} runs in turns. Both
        answer all that a read gave them before they read again, and write these answers together: {} On a shared machine
        these ratios differ by a tenth and more from run to run.",
        calls(transcript, second, &inputs[2])
    ));
    println!("| lines | transcript: lines per second | microseconds a line | second-transcript: lines per second | microseconds a line | times as fast as second-transcript |\n|---|---|---|---|---|---|");
    for (input, best) in inputs.iter().zip(times) {
        print_times(&input.name, input.lines, best);
    }
    print_times(&format!("{}, one at a time", inputs[0].name), inputs[0].lines, by_line);
}

fn print_times(name: &str, lines: usize, best: &Times) {
    let speed = |seconds: f64| format!("{:.0} thousand | {:.2}", lines as f64 / seconds / 1e3, seconds / lines as f64 * 1e6);
    println!("| {name} | {} | {} | {:.2} |", speed(best.ours), speed(best.theirs), best.ratio());
}

fn calls(transcript: &Program, second: &Program, input: &Input) -> String {
    let counted = |program: &Program| {
        program.calls(input).map_or("calls that were not counted".to_string(), |(reads, writes)| format!("{reads} reads and {writes} writes"))
    };
    format!("from the file of {} lines {} by `transcript`, {} by `second-transcript`.", input.name, counted(transcript), counted(second))
}

fn print_flatness(transcript: &Program, inputs: &[Input], times: &[Times], goals: &mut Goals) {
    println!("\n## Time per line\n");
    paragraph(&format!(
        "The same runs of `transcript`; each smaller input is the beginning of the next larger one. Time for a line,
        and instructions for a line as valgrind counts them, each against {} lines.",
        inputs[0].name
    ));
    println!("| lines | time per line | instructions per line |\n|---|---|---|");
    let mut largest: f64 = 0.0;
    let mut same_work = true;
    let counts: Vec<Option<f64>> = inputs.iter().map(|input| transcript.instructions(input)).collect();
    for (place, input) in inputs.iter().enumerate() {
        let per_line = |total: f64, first: f64| total / input.lines as f64 / (first / inputs[0].lines as f64);
        let time = per_line(times[place].ours, times[0].ours);
        let work = counts[place].zip(counts[0]).map(|(count, first)| per_line(count, first));
        println!("| {} | {time:.2} | {} |", input.name, work.map_or("not counted".to_string(), |work| format!("{work:.3}")));
        largest = largest.max(time);
        same_work &= work.is_some_and(|work| work <= 1.01);
    }
    goals.add(
        &format!("Time per line flat: at most {FLAT} times that at {} lines", inputs[0].name),
        largest <= FLAT,
        format!("{largest:.2} times at the most"),
        if same_work { OTHER_WORK } else { "" },
    );
}

fn print_memory(transcript: &Program, inputs: &[Input], folder: &Path, goals: &mut Goals) -> io::Result<()> {
    println!("\n## Memory\n");
    paragraph(&format!(
        "The most memory that `transcript` held (VmHWM) when it had answered all lines and waited for more; the last
        input is one line of {} million characters.",
        LONG_LINE / 1_000_000
    ));
    println!("| lines | kB | part of 8 MB |\n|---|---|---|");
    let mut most = 0;
    for input in inputs.iter().chain([&long_line(folder)?]) {
        let memory = transcript.memory(input)?;
        println!("| {} | {memory} | {:.2} |", input.name, memory as f64 / MOST_MEMORY as f64);
        most = most.max(memory);
    }
    goals.add("Memory under 8 MB", most < MOST_MEMORY, format!("{most} kB at the most"), "");
    Ok(())
}

fn long_line(folder: &Path) -> io::Result<Input> {
    let file = folder.join("long.in");
    fs::write(&file, [vec![b'0'; LONG_LINE], b"\n".to_vec()].concat())?;
    Ok(Input { file, name: "one, very long".to_string(), lines: 1 })
}
