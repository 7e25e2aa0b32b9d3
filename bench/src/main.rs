//! What a frame costs, by the original and by this project, measured in turns in one run.

mod calls;
mod case;

use calls::Call;
use case::{case, Case, Shape};
use std::time::{Duration, Instant};

const ROUNDS: usize = 31;
const ROUND: Duration = Duration::from_micros(500);

type Make = for<'a> fn(&'a Case) -> Call<'a>;

/// What is compared: the original's call, and this project's.
struct Comparison {
    name: &'static str,
    original: Make,
    project: Make,
}

const COMPARISONS: [Comparison; 15] = [
    Comparison {
        name: "Reading: the original's records with values; hopsickle_read, all arrays",
        original: calls::original_reading,
        project: calls::flat_reading,
    },
    Comparison {
        name: "Checked reading: the same; hopsickle_read_checked",
        original: calls::original_reading,
        project: calls::flat_checked,
    },
    Comparison {
        name: "Granted reading, all channels: the same; hopsickle_read_granted",
        original: calls::original_reading,
        project: calls::flat_granted_all,
    },
    Comparison {
        name: "Granted reading, one channel: the same, which reads all; hopsickle_read_granted",
        original: calls::original_reading,
        project: calls::flat_granted_one,
    },
    Comparison {
        name: "Reading by confRev, the last of 8 sets: the same; hopsickle_read_by_sets",
        original: calls::original_reading,
        project: calls::flat_by_sets,
    },
    Comparison {
        name: "Reading with values: the same; hopsickle_read, then hopsickle_values",
        original: calls::original_reading,
        project: calls::flat_reading_values,
    },
    Comparison {
        name: "Strict reading: the original's reading and writing together; hopsickle_read_strict",
        original: calls::original_strict,
        project: calls::flat_strict,
    },
    Comparison {
        name: "Strict reading, fixed form: the same; hopsickle_read_strict",
        original: calls::original_strict,
        project: calls::flat_strict_fixed,
    },
    Comparison {
        name: "Writing: encode_smv, which takes values; hopsickle_write, of counts",
        original: calls::original_writing,
        project: calls::flat_writing,
    },
    Comparison {
        name: "Writing, fixed form: the same, which has the shortest; hopsickle_write",
        original: calls::original_writing,
        project: calls::flat_writing_fixed,
    },
    Comparison {
        name: "Writing values: encode_smv; hopsickle_write_values",
        original: calls::original_writing,
        project: calls::flat_writing_values,
    },
    Comparison {
        name: "Bindings, reading: decode_ethernet_header and decode_smv, on both sides",
        original: calls::original_reading,
        project: calls::rust_reading,
    },
    Comparison {
        name: "Bindings, strict reading: reading and writing together; Frame::read_strict, records",
        original: calls::original_strict,
        project: calls::rust_strict,
    },
    Comparison {
        name: "Bindings, writing: encode_smv; encode_counts",
        original: calls::original_writing,
        project: calls::rust_writing,
    },
    Comparison {
        name: "Bindings, writing values: encode_smv, on both sides",
        original: calls::original_writing,
        project: calls::rust_writing_values,
    },
];

/// Nanoseconds a frame.
#[derive(Clone, Copy)]
struct Cost {
    median: f64,
    least: f64,
}

fn cost(mut rounds: Vec<f64>) -> Cost {
    rounds.sort_by(f64::total_cmp);
    Cost { median: rounds[rounds.len() / 2], least: rounds[0] }
}

/// So many calls that they take a round.
fn calls_a_round(call: &mut Call) -> usize {
    let mut n = 16;
    loop {
        let start = Instant::now();
        call(n);
        if ROUND <= start.elapsed() {
            return n;
        }
        n += n / 2;
    }
}

/// The costs of both sides, round by round in turns.
fn measure(case: &Case, comparison: &Comparison) -> (Cost, Cost) {
    let mut calls = [(comparison.original)(case), (comparison.project)(case)];
    let counts = [calls_a_round(&mut calls[0]), calls_a_round(&mut calls[1])];
    let mut rounds = [vec![], vec![]];
    for _ in 0..ROUNDS {
        for ((call, n), times) in calls.iter_mut().zip(counts).zip(&mut rounds) {
            let start = Instant::now();
            call(n);
            times.push(start.elapsed().as_nanos() as f64 / n as f64);
        }
    }
    let [original, project] = rounds;
    (cost(original), cost(project))
}

/// a, b and c of the least squares of ns = a + b · ASDUs + c · samples, and the largest deviation
/// from it in percent.
fn fit(points: &[(f64, f64, f64)]) -> ([f64; 3], f64) {
    let mut rows = [[0.0; 4]; 3];
    for &(asdus, samples, ns) in points {
        let terms = [1.0, asdus, samples];
        // Relative to the cost, so that small frames weigh as much as large ones.
        for (row, term) in rows.iter_mut().zip(terms) {
            for (cell, other) in row.iter_mut().zip(terms.iter().chain([&ns])) {
                *cell += term * other / (ns * ns);
            }
        }
    }
    for i in 0..3 {
        let pivot = rows[i];
        for (j, row) in rows.iter_mut().enumerate() {
            if i != j {
                let factor = row[i] / pivot[i];
                for (cell, other) in row.iter_mut().zip(pivot) {
                    *cell -= factor * other;
                }
            }
        }
    }
    let found = [0, 1, 2].map(|i| rows[i][3] / rows[i][i]);
    let deviation = points.iter().map(|&(asdus, samples, ns)| {
        100.0 * ((found[0] + found[1] * asdus + found[2] * samples) / ns - 1.0).abs()
    });
    (found, deviation.fold(0.0, f64::max))
}

fn print_fit(name: &str, points: &[(f64, f64, f64)]) {
    let ([a, b, c], deviation) = fit(points);
    println!("  {name}: ns = {a:.1} + {b:.1} * ASDUs + {c:.2} * samples, within {deviation:.0} %");
}

fn main() {
    let mut cases = vec![];
    for asdus in [1, 2, 4, 8] {
        for channels in [1, 8, 24] {
            cases.extend(case(Shape { asdus, channels, full: false }));
        }
    }
    cases.extend(case(Shape { asdus: 8, channels: 8, full: true }));

    println!("Nanoseconds a frame, median and least of {ROUNDS} rounds of {} microseconds, the two sides in turns.", ROUND.as_micros());
    println!("Ratio: this project's by the original's. Frames are tagged, with svID of 10 octets and no optional field,");
    println!("but for the last row, which has every one. The flat arrays and the buffers are not cleared between calls.");
    for comparison in &COMPARISONS {
        println!("\n{}", comparison.name);
        println!(
            "  {:>5} {:>8} {:>6} {:>10} {:>9} {:>10} {:>9} {:>7} {:>7}",
            "ASDUs",
            "channels",
            "octets",
            "original",
            "least",
            "project",
            "least",
            "ratio",
            "least"
        );
        let (mut originals, mut projects) = (vec![], vec![]);
        for case in &cases {
            let (original, project) = measure(case, comparison);
            let Shape { asdus, channels, full } = case.shape;
            println!(
                "  {:>5} {:>8} {:>6} {:>10.1} {:>9.1} {:>10.1} {:>9.1} {:>7.2} {:>7.2}{}",
                asdus,
                channels,
                case.frames[0].frame.len(),
                original.median,
                original.least,
                project.median,
                project.least,
                project.median / original.median,
                project.least / original.least,
                if full { "  every optional field" } else { "" }
            );
            if !full {
                let (asdus, samples) = (asdus as f64, (asdus * channels) as f64);
                originals.push((asdus, samples, original.least));
                projects.push((asdus, samples, project.least));
            }
        }
        print_fit("original", &originals);
        print_fit("project", &projects);
    }
}
