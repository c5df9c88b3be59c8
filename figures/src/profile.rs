//! Where the transcript program's time and instructions go, by function.

use crate::programs::{Input, Program};
use crate::text::paragraph;
use std::collections::BTreeMap;
use std::fs::File;
use std::path::Path;
use std::process::{Command, Stdio};

/// Parts of the whole, by function.
type Parts = BTreeMap<String, f64>;

const LEAST: f64 = 0.01;
const MEMORY: [&str; 2] = ["memcpy, memmove", "memset"];
const OTHERS: &str = "others";

/// No parts where there is no tool to count them.
pub struct Profile {
    time: Parts,
    instructions: Parts,
}

struct Row {
    name: String,
    time: f64,
    instructions: f64,
}

impl Profile {
    /// The time on many lines, by perf, and the instructions on few, by valgrind.
    pub fn of(program: &Program, many: &Input, few: &Input, folder: &Path) -> Profile {
        let time = by_perf(&program.path, many, folder).unwrap_or_default();
        let instructions = by_valgrind(&program.path, few, folder).unwrap_or_default();
        Profile { time, instructions }
    }

    pub fn print(&self, many: &Input, few: &Input) {
        println!("\n## Where it goes\n");
        paragraph(&format!(
            "`transcript`'s time on {} lines, as perf samples it, and its instructions on {} lines, as valgrind
            counts them, as parts of the whole. A function that the compiler put into its caller counts as the caller. To see
            it again, the time and then the instructions:",
            many.name, few.name
        ));
        println!("    second/target/release/generate 1 {} >lines", many.lines);
        println!("    perf record -e cpu-clock -o perf.data crates/transcript/out/transcript <lines >/dev/null");
        println!("    perf report -i perf.data --stdio");
        println!("    head -n {} lines | valgrind --tool=callgrind --callgrind-out-file=callgrind.out crates/transcript/out/transcript >/dev/null", few.lines);
        println!("    callgrind_annotate callgrind.out\n");
        println!("| function | time | instructions |\n|---|---|---|");
        let shown = |parts: &Parts, part: f64| if parts.is_empty() { "not counted".to_string() } else { format!("{part:.2}") };
        for row in self.rows() {
            println!("| {} | {} | {} |", row.name, shown(&self.time, row.time), shown(&self.instructions, row.instructions));
        }
    }

    /// The largest first; the small ones together, last.
    fn rows(&self) -> Vec<Row> {
        let mut rows = Vec::new();
        let mut others = Row { name: OTHERS.to_string(), time: 0.0, instructions: 0.0 };
        let mut names: Vec<&String> = self.time.keys().chain(self.instructions.keys()).collect();
        names.sort();
        names.dedup();
        for name in names {
            let part = |parts: &Parts| parts.get(name).copied().unwrap_or(0.0);
            let row = Row { name: name.clone(), time: part(&self.time), instructions: part(&self.instructions) };
            if name == OTHERS || row.time.max(row.instructions) < LEAST {
                others.time += row.time;
                others.instructions += row.instructions;
            } else {
                rows.push(row);
            }
        }
        rows.sort_by(|one, other| (other.time, other.instructions).partial_cmp(&(one.time, one.instructions)).unwrap());
        rows.push(others);
        rows
    }

    /// In one sentence; none where nothing was counted.
    pub fn sentence(&self) -> String {
        let (parts, whole) = if self.time.is_empty() { (&self.instructions, "instructions") } else { (&self.time, "time") };
        let of_memory = |name: &str| MEMORY.contains(&name);
        let memory: f64 = parts.iter().filter(|part| of_memory(part.0)).map(|part| part.1).sum();
        let largest = parts.iter().filter(|part| !of_memory(part.0) && *part.0 != OTHERS).max_by(|one, other| one.1.total_cmp(other.1));
        largest.map_or(String::new(), |(name, part)| {
            format!("Of its {whole} {memory:.2} goes into copying and clearing memory and {part:.2} into `{name}`; \"Where it goes\" has the rest.")
        })
    }
}

fn by_perf(program: &str, input: &Input, folder: &Path) -> Option<Parts> {
    let file = folder.join("perf.data");
    run(Command::new("perf").args(["record", "-q", "-e", "cpu-clock", "-F", "4000", "-o"]).arg(&file).arg(program), input)?;
    summed(Command::new("perf").args(["report", "-q", "--stdio", "--sort", "symbol", "-i"]).arg(&file), perf_line)
}

fn by_valgrind(program: &str, input: &Input, folder: &Path) -> Option<Parts> {
    let file = folder.join("callgrind.out");
    let option = format!("--callgrind-out-file={}", file.display());
    run(Command::new("valgrind").args(["-q", "--tool=callgrind", &option, program]), input)?;
    summed(Command::new("callgrind_annotate").arg("--threshold=100").arg(&file), valgrind_line)
}

fn run(command: &mut Command, input: &Input) -> Option<()> {
    let file = File::open(&input.file).ok()?;
    command.stdin(file).stdout(Stdio::null()).stderr(Stdio::null()).status().ok()?.success().then_some(())
}

fn summed(report: &mut Command, read: fn(&str) -> Option<(f64, String)>) -> Option<Parts> {
    let output = report.stderr(Stdio::null()).output().ok()?;
    let mut parts = Parts::new();
    for (percent, name) in String::from_utf8_lossy(&output.stdout).lines().filter_map(read) {
        *parts.entry(name).or_default() += percent / 100.0;
    }
    Some(parts)
}

/// `35.76%  [.] good_state::good`, perhaps with more columns; [k] is a function of the kernel.
fn perf_line(line: &str) -> Option<(f64, String)> {
    let (percent, rest) = line.split_once("%  [")?;
    let (kind, symbol) = rest.split_once("] ")?;
    let name = if kind == "k" { "the kernel".to_string() } else { named(symbol.split("  ").next()?) };
    Some((percent.trim().parse().ok()?, name))
}

/// `15,772,873 (29.58%)  ???:good_state::good [crates/transcript/out/transcript]`
fn valgrind_line(line: &str) -> Option<(f64, String)> {
    let (percent, rest) = line.split_once('(')?.1.split_once("%)")?;
    let symbol = rest.split_once(':')?.1;
    Some((percent.trim().parse().ok()?, named(symbol.split(" [").next()?)))
}

/// The C library has each function that moves memory in several forms, under longer names.
fn named(symbol: &str) -> String {
    let name = if symbol.contains("memcpy") || symbol.contains("memmove") {
        MEMORY[0]
    } else if symbol.contains("memset") {
        MEMORY[1]
    } else if symbol.starts_with("0x") {
        OTHERS
    } else {
        symbol
    };
    name.to_string()
}
