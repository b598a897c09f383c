//! The page: what it says, its rows by volume, and the figures over all of them.

use std::fs::read_to_string;

use super::dates;
use super::row::{time_in_rounds, Effort, Row};
use super::volume::{Timed, Volume};

pub const HEAD: &str = "## The benchmark

Printed by `bench_calls`; 'What is measured' tells what the columns are.
";

pub fn processor() -> String {
    let text = read_to_string("/proc/cpuinfo").unwrap_or_default();
    let line = text.lines().find_map(|line| line.strip_prefix("model name"));
    line.map_or("an unknown processor", |line| line.trim_start_matches([' ', '\t', ':'])).into()
}

/// The rows of a volume, or those that have none.
struct Section<'a> {
    title: &'static str,
    calls: Vec<(String, Row<'a>)>,
    floor: Option<Row<'a>>,
}

impl<'a> Section<'a> {
    fn new(volume: &'a Volume) -> Section<'a> {
        let row = |timed: Timed<'a>| (timed.what, Row::call(timed.table, timed.call, timed.wanted));
        let calls = volume.calls().into_iter().map(row).collect();
        Section { title: volume.title, calls, floor: Some(Row::floor(&volume.table)) }
    }

    fn without_volume() -> Section<'a> {
        Section { title: "no volume", calls: dates::rows(), floor: None }
    }

    fn rows(&mut self) -> impl Iterator<Item = &mut Row<'a>> {
        self.calls.iter_mut().map(|(_, row)| row).chain(&mut self.floor)
    }

    fn ratios(&self) -> Vec<f64> {
        self.calls.iter().map(|(_, row)| row.ratio()).collect()
    }

    fn print(&self) {
        for (what, row) in &self.calls {
            let floor = self.floor.as_ref().map_or("– | –".into(), Row::times);
            let columns = row.times_and_ratio();
            println!("| {} | {what} | {columns} | {floor} |", self.title);
        }
    }
}

/// The table of all calls on all volumes, and the figures.
pub fn print_calls(volumes: &[Volume], effort: Effort) {
    let mut sections: Vec<_> = volumes.iter().map(Section::new).collect();
    sections.push(Section::without_volume());
    time_in_rounds(sections.iter_mut().flat_map(Section::rows), effort);
    println!("\n| Volume | Call | Library | Unrelated | Ratio | Pass | C check |\n|---|---|---:|---:|---:|---:|---:|");
    sections.iter().for_each(Section::print);
    println!("\n| Volume | Rows | Highest ratio | Geometric mean | Above 0.8 | Above 1.0 |\n|---|---:|---:|---:|---:|---:|");
    for section in &sections {
        print_figures(section.title, &section.ratios());
    }
    print_figures("all", &sections.iter().flat_map(Section::ratios).collect::<Vec<_>>());
}

fn print_figures(title: &str, ratios: &[f64]) {
    let highest = ratios.iter().copied().fold(0.0, f64::max);
    let mean = f64::exp(ratios.iter().map(|ratio| ratio.ln()).sum::<f64>() / ratios.len() as f64);
    let above = |bound: f64| ratios.iter().filter(|&&ratio| ratio > bound).count();
    let (rows, many, slower) = (ratios.len(), above(0.8), above(1.0));
    println!("| {title} | {rows} | {highest:.2} | {mean:.2} | {many} | {slower} |");
}
