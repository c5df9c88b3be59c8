//! Padding and stripping through the archive against the second program's, in this process.

use crate::goals::Goals;
use crate::text::paragraph;
use second::padding::{pad, strip, BLOCK};
use std::hint::black_box;
use std::time::Instant;

const CALLS: usize = 10_000;
const ROUNDS: usize = 25;

// Why it may be slower, as the machine code showed it.
const PADDING_SLOWER: &str = "The archive and plain Rust make the same two calls, one that fills memory and one that copies it;
    the archive's go by the linkage table, and the rest is where the linker puts the code.";

extern "C" {
    fn shoalpennant_pad(message: *const u8, message_len: usize, buffer: *mut u8, buffer_len: usize) -> usize;
    fn shoalpennant_strip(block: *const u8, block_len: usize) -> usize;
}

#[inline(always)]
fn archive_pad(message: &[u8], buffer: &mut [u8]) -> usize {
    // SAFETY: two slices that do not overlap; their pointers are not null.
    unsafe { shoalpennant_pad(message.as_ptr(), message.len(), buffer.as_mut_ptr(), buffer.len()) }
}

#[inline(always)]
fn archive_strip(block: &[u8]) -> usize {
    // SAFETY: a slice; its pointer is not null.
    unsafe { shoalpennant_strip(block.as_ptr(), block.len()) }
}

// A call of the archive cannot be inlined, so a call of these is not either.

#[inline(never)]
fn plain_pad(message: &[u8], buffer: &mut [u8]) -> usize {
    pad(message, buffer)
}

#[inline(never)]
fn plain_strip(block: &[u8]) -> usize {
    strip(block)
}

/// The calls of one function, each with how many times as fast as plain Rust it is.
struct Table {
    rows: Vec<(String, f64)>,
}

impl Table {
    fn add(&mut self, name: String, times: Times) {
        let nanoseconds = |sum: f64| sum * 1e9 / (CALLS * PLACES.len()) as f64;
        let ratio = (times.ratio() * 100.0).round() / 100.0;
        println!("| {name} | {:.1} | {:.1} | {ratio:.2} |", nanoseconds(times.archive_sum), nanoseconds(times.plain_sum));
        self.rows.push((name, ratio));
    }

    fn judge(&self, goals: &mut Goals, name: &str, why: &str) {
        let least = self.rows.iter().map(|row| row.1).fold(f64::INFINITY, f64::min);
        let slower: Vec<String> = self.rows.iter().filter(|row| row.1 < 1.0).map(|row| row.0.clone()).collect();
        let mut measured = format!("{least:.2} times at the least");
        if !slower.is_empty() {
            measured += &format!("; slower are: {}", slower.join(", "));
        }
        goals.add(&format!("{name} at least 1.0 times as fast, each call"), slower.is_empty(), measured, why);
    }
}

pub fn measure(goals: &mut Goals) {
    println!("\n## Padding and stripping\n");
    paragraph(&format!(
        "Through the archive against the second program's plain Rust, in one process built for release (opt-level 3); neither
        is inlined. The same slices for both, at each place from 0 to 48 of a cache line in steps of 16; the buffer is not
        cleared between calls. The best of {ROUNDS} rounds of {CALLS} calls in turns."
    ));
    println!("| call | nanoseconds | plain Rust: nanoseconds | times as fast as plain Rust |\n|---|---|---|---|");
    let mut padding = Table { rows: Vec::new() };
    for n in [0, 1, 20, 35, 51, 128, 200, 245] {
        padding.add(format!("pad {n}"), pad_times(&bytes(n)));
    }
    padding.add("pad 246 (refused)".to_string(), pad_times(&bytes(246)));
    let mut stripping = Table { rows: Vec::new() };
    for n in [245, 200, 128, 51, 20, 1, 0] {
        stripping.add(format!("strip to {n}"), strip_times(&block(n)));
    }
    stripping.add("strip without a zero byte (refused)".to_string(), strip_times(&[vec![0, 2], vec![7; 254]].concat()));
    stripping.add("strip a block that begins with 00 01 (refused)".to_string(), strip_times(&padded()));
    println!();
    paragraph(
        "The numbers are message bytes. From run to run these ratios differ by a tenth and more, from build to build too, by
        where the linker puts the code, and from machine to machine by up to a third; those of calls that take under 3
        nanoseconds by up to a half.",
    );
    padding.judge(goals, "Padding", PADDING_SLOWER);
    stripping.judge(goals, "Stripping", "");
}

fn bytes(n: usize) -> Vec<u8> {
    (0..n).map(|i| (i * 7 + 1) as u8).collect()
}

/// A right block with a message of n bytes.
fn block(n: usize) -> Vec<u8> {
    [vec![0, 2], vec![7; 253 - n], vec![0], bytes(n)].concat()
}

fn padded() -> Vec<u8> {
    let mut block = vec![0; BLOCK];
    pad(&bytes(20), &mut block);
    block
}

/// Memory in which slices start at known places, so that no two runs differ in that.
#[repr(align(4096))]
struct Room {
    from: [u8; 1024],
    to: [u8; 1024],
}

const PLACES: [usize; 4] = [0, 16, 32, 48];

fn pad_times(message: &[u8]) -> Times {
    let mut room = Room { from: [0; 1024], to: [0; 1024] };
    let mut times = Times::default();
    for place in PLACES {
        let from = &mut room.from[place..place + message.len()];
        from.copy_from_slice(message);
        let to = &mut room.to[place..place + BLOCK];
        let mut expected = [0xEE; BLOCK];
        to.fill(0xEE);
        assert_eq!(archive_pad(from, to), plain_pad(from, &mut expected));
        assert_eq!(to, expected);
        for _ in 0..ROUNDS {
            times.archive(seconds(|| archive_pad(black_box(from), black_box(to))));
            times.plain(seconds(|| plain_pad(black_box(from), black_box(to))));
        }
        times.next_place();
    }
    times
}

fn strip_times(block: &[u8]) -> Times {
    let mut room = Room { from: [0; 1024], to: [0; 1024] };
    let mut times = Times::default();
    for place in PLACES {
        let from = &mut room.from[place..place + block.len()];
        from.copy_from_slice(block);
        assert_eq!(archive_strip(from), plain_strip(from));
        for _ in 0..ROUNDS {
            times.archive(seconds(|| archive_strip(black_box(from))));
            times.plain(seconds(|| plain_strip(black_box(from))));
        }
        times.next_place();
    }
    times
}

/// The best times of the two, summed over the places.
#[derive(Default)]
struct Times {
    archive: Option<f64>,
    plain: Option<f64>,
    archive_sum: f64,
    plain_sum: f64,
}

impl Times {
    fn archive(&mut self, time: f64) {
        self.archive = Some(self.archive.unwrap_or(time).min(time));
    }

    fn plain(&mut self, time: f64) {
        self.plain = Some(self.plain.unwrap_or(time).min(time));
    }

    fn next_place(&mut self) {
        self.archive_sum += self.archive.take().unwrap_or(0.0);
        self.plain_sum += self.plain.take().unwrap_or(0.0);
    }

    fn ratio(&self) -> f64 {
        self.plain_sum / self.archive_sum
    }
}

fn seconds(mut call: impl FnMut() -> usize) -> f64 {
    let start = Instant::now();
    for _ in 0..CALLS {
        black_box(call());
    }
    start.elapsed().as_secs_f64()
}
