//! A line for each job: what each program costs a sample, and the tool's cost as a multiple.

use crate::measure::{Measure, Measured};
use crate::program::Program;

pub fn print(
    job: &str,
    programs: &[&Program],
    measured: &[Measured],
    samples: usize,
    measure: Measure,
) {
    let each: Vec<f64> = measured
        .iter()
        .map(|m| m.cost * measure.unit() / samples as f64)
        .collect();
    println!("{}", line(job, programs, &each));
}

fn line(job: &str, programs: &[&Program], each: &[f64]) -> String {
    let costs = (programs.iter().zip(each)).map(|(p, cost)| format!("{} {cost:.1}", p.title));
    let ratios = (programs.iter().zip(each).skip(1))
        .map(|(p, cost)| format!("tool : {} = {:.2}", p.title, each[0] / cost));
    let all: Vec<String> = costs.chain(ratios).collect();
    format!("{job:<20} {}", all.join("   "))
}

#[cfg(test)]
mod tests {
    use super::*;
    use std::path::Path;

    #[test]
    fn a_line_has_costs_and_ratios() {
        let of = |title| Program::new(title, "x", Path::new("."));
        let (tool, other) = (of("tool"), of("other"));
        let found = line("encode", &[&tool, &other], &[30.0, 20.0]);
        assert!(found.ends_with("tool 30.0   other 20.0   tool : other = 1.50"));
    }
}
