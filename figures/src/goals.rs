//! The goals, met or missed.

use crate::text::wrapped;

#[derive(Default)]
pub struct Goals {
    lines: Vec<String>,
}

impl Goals {
    /// `why` is said where the goal is missed.
    pub fn add(&mut self, goal: &str, met: bool, measured: String, why: &str) {
        let verdict = if met { "met" } else { "**missed**" };
        let why = if met || why.is_empty() { String::new() } else { format!(" {why}") };
        self.lines.push(format!("- {goal}: {verdict}, {measured}.{why}"));
    }

    pub fn print(&self) {
        println!("## Goals\n");
        for line in &self.lines {
            println!("{}", wrapped(line, "  "));
        }
    }
}
