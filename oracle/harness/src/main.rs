//! Runs a recording through the published refiner and smoother and prints what refine, frames or smooth should print; or a list of calls of a refiner and of a
//! smoother, and prints what calls should print.
//!
//!     oracle refine|frames|smooth < RECORDING
//!     oracle calls < CALLS
//!     oracle calls_named < CALLS          the same, and after `refused 3` the clauses of the state rule that are broken
//!     oracle calls_cells < CALLS          what the callers keep and lend at the end, in binary
//!
//! The refusals are not the published code's: they are worked out here from document 01, so that the published code sees the accepted frames only.
#![allow(dead_code)]

mod arithmetic;
mod calls;
mod digest;
mod engine;
mod fgo;
mod frames;
mod image;
mod models;
mod reading;
mod refiner_calls;
mod rule;
mod smoother;
mod smoother_calls;

use engine::*;
use fgo::{FgoConfig, FixedLagRefiner};
use smoother::FixedLagSmoother;
use std::collections::BTreeSet;
use std::io::{Read, Write};

const USE: &str = "oracle refine|frames|smooth < RECORDING, or oracle calls|calls_named|calls_cells < CALLS";

#[derive(Clone, Copy, PartialEq)]
enum Program {
    Refine,
    Frames,
    Smooth,
}

fn print_frame(out: &mut impl Write, p: Program, f: &LidarFrameOutput) {
    if p == Program::Refine {
        writeln!(out, "frame {} {} {}", f.timestamp_ns, f.tracks.len(), f.associations.len()).unwrap();
        for t in &f.tracks {
            let q: Vec<String> = t.position.iter().map(|x| format!("{:016x}", frames::bits(*x))).collect();
            writeln!(
                out,
                "track {} {} {} {} {}",
                t.track_id,
                (t.lifecycle == "confirmed") as u64,
                t.age_since_spatial_update_ns,
                t.observation_times_count,
                q.join(" ")
            )
            .unwrap();
        }
        for a in &f.associations {
            writeln!(out, "assoc {} {} {}", a.observation_index, a.track_id.unwrap_or(0), frames::outcome_number(&a.outcome)).unwrap();
        }
        return;
    }
    frames::print(out, &frames::lists(f));
}

struct Run<'a, W: Write> {
    out: &'a mut W,
    program: Program,
    smoother: Option<FixedLagSmoother>,
}

impl<W: Write> Run<'_, W> {
    fn emit(&mut self, frames: Vec<LidarFrameOutput>) {
        for f in frames {
            match &mut self.smoother {
                Some(s) => {
                    for g in s.push(f) {
                        print_frame(self.out, self.program, &g);
                    }
                }
                None => print_frame(self.out, self.program, &f),
            }
        }
    }
}

/// Refusals 8, 9 and 10.
fn full(r: &FixedLagRefiner, f: &LidarFrameOutput) -> Option<u32> {
    let k = r.counters();
    let most = 1u64 << 60;
    if r.accepted() >= 4_294_967_295 || [r.next_id(), k.swaps, k.merges, k.splits, k.drops].iter().any(|n| *n > most) {
        return Some(8);
    }
    let ids: Vec<u64> = f.associations.iter().filter_map(|a| a.track_id).collect();
    let (frozen, detections) = r.frozen_and_detections();
    if frozen + detections + ids.len() > 128 {
        return Some(9);
    }
    let joined: BTreeSet<u64> = r.owned_engine_ids().into_iter().chain(ids).collect();
    if joined.len() > 256 {
        return Some(10);
    }
    None
}

fn main() {
    let name = std::env::args().nth(1).unwrap_or_default();
    let mut bytes = Vec::new();
    std::io::stdin().read_to_end(&mut bytes).unwrap();
    let stdout = std::io::stdout();
    let mut out = std::io::BufWriter::new(stdout.lock());
    if let Some(how) = name.strip_prefix("calls") {
        let mut player = calls::Player::new();
        match how {
            "" => {}
            "_named" => player.names = true,
            "_cells" => {
                player.play(&mut std::io::sink(), &bytes);
                return out.write_all(&player.cells()).unwrap();
            }
            _ => panic!("{USE}"),
        }
        return player.play(&mut out, &bytes);
    }
    let program = match name.as_str() {
        "refine" => Program::Refine,
        "frames" => Program::Frames,
        "smooth" => Program::Smooth,
        _ => panic!("{USE}"),
    };
    let (config, bodies) = match reading::recording(&bytes) {
        Ok(r) => r,
        Err(n) => {
            writeln!(out, "refused {n}").unwrap();
            return;
        }
    };
    if !reading::legal(&config) {
        writeln!(out, "refused 1").unwrap();
        return;
    }
    let smoother = (program == Program::Smooth).then(|| FixedLagSmoother::new(config.lag_frames, config.accel_spectral_density));
    let mut refiner = FixedLagRefiner::new(FgoConfig::clone(&config));
    let mut run = Run { out: &mut out, program, smoother };
    for body in bodies {
        let refused = match reading::frame(body) {
            Err(n) => Some(n),
            Ok(f) => match full(&refiner, &f) {
                Some(n) => Some(n),
                None => {
                    run.emit(refiner.push(f));
                    None
                }
            },
        };
        if let Some(n) = refused {
            writeln!(run.out, "refused {n}").unwrap();
        }
    }
    run.emit(refiner.finish());
    if let Some(mut s) = run.smoother.take() {
        for g in s.finish() {
            print_frame(run.out, program, &g);
        }
    }
    let k = refiner.counters();
    writeln!(out, "counters {} {} {} {}", k.swaps, k.merges, k.splits, k.drops).unwrap();
}
