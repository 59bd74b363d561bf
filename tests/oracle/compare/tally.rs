// What a run of the comparison comes to: cases inside the domain by their number, those outside by the rule that puts
// them there, and those that differ.
use crate::domain::{Rule, RULES};

#[derive(Default)]
pub struct Tally {
    // a number of 15 stands under those that differ: the Rust has no such refusal
    pub inside: [u64; 16],
    pub outside: [u64; RULES.len()],
    pub differ: u64,
    // of those inside, in tables with equal entries in a row
    pub runs: u64,
}

impl Tally {
    pub fn inside(&mut self, number: u32) {
        self.inside[number as usize] += 1;
    }

    pub fn outside(&mut self, rule: Rule) {
        let i = RULES.iter().position(|(r, _)| *r == rule).unwrap();
        self.outside[i] += 1;
    }

    // Tells a case that differs; of many the first few.
    pub fn differs(&mut self, what: impl FnOnce() -> String) {
        self.differ += 1;
        if self.differ <= 3 {
            println!("  differs: {}", what());
        }
    }

    pub fn print(&self, name: &str, seconds: f64) {
        let cases: u64 = self.inside.iter().sum();
        println!("{name}: {cases} inside the domain, {} differ, {seconds:.1} s", self.differ);
        println!("  in tables with equal entries in a row: {}", self.runs);
        let numbers: Vec<_> =
            (0..16).filter(|n| self.inside[*n] > 0).map(|n| format!("{n}: {}", self.inside[n])).collect();
        println!("  by number: {}", numbers.join(", "));
        for (count, (_, rule)) in self.outside.iter().zip(RULES) {
            if *count > 0 {
                println!("  outside, {rule}: {count}");
            }
        }
    }
}
