//! Document 01's state rules, clause by clause, judged on what the callers keep. Each clause stands under the document's words. Written from the document, apart
//! from the project's code.
//!
//! Three clauses of the refiner's cannot be broken in this layout: "every track is frozen or has a window" (a track is where its id stands), "windows hold only
//! held associations" and "each held association lies in exactly one window or in clutter" (a window is what the held columns say, and an association has one
//! place in them).
use crate::engine::LidarFrameOutput;
use crate::fgo::{FrozenPart, Kept};
use crate::image::*;
use crate::{frames, reading};
use std::collections::{BTreeMap, BTreeSet};

const MOST_SCANS: u64 = 4_294_967_295;
const MOST_TIME: i64 = (1 << 62) - 1;

/// A detection in a window: its place among the held scans, its engine id, the track that it lies in.
pub struct Detection {
    pub scan: usize,
    pub engine_id: Option<u64>,
    pub id: u64,
}

/// What the counts of a refiner's image let one see. Where a count is more than there is room for, what there is.
pub struct View<'a> {
    pub image: &'a RefinerImage,
    /// Of each held scan its frame, and the tracks of its associations; none where 5, 6 or 7 would refuse it.
    pub scans: Vec<Option<(LidarFrameOutput, Vec<u64>)>>,
    /// The words of each frozen part, and its numbers.
    pub parts: Vec<(&'a [u64], &'a [u64])>,
    /// Engine id and owner.
    pub owners: Vec<(u64, u64)>,
}

impl<'a> View<'a> {
    pub fn of(image: &'a RefinerImage) -> Self {
        let held = image.held().min(SLOTS - 1);
        let scan = |k: u64| {
            let n = image.first().wrapping_add(k);
            let frame = reading::frame(image.body(n)).ok()?;
            let ids = image.ids(n)[..frame.associations.len()].to_vec();
            Some((frame, ids))
        };
        let frozen = image.fields[FROZEN_PARTS].min(FROZEN as u64) as usize;
        let owned = image.fields[OWNED_IDS].min(OWNED as u64) as usize;
        View {
            image,
            scans: (0..held).map(scan).collect(),
            parts: image.tracks.chunks(PART).zip(image.filters.chunks(FILTER)).take(frozen).collect(),
            owners: image.owners.chunks(2).map(|p| (p[0], p[1])).take(owned).collect(),
        }
    }

    /// The detections in windows, scan by scan.
    pub fn detections(&self) -> Vec<Detection> {
        let mut out = Vec::new();
        for (scan, held) in self.scans.iter().enumerate() {
            if let Some((frame, ids)) = held {
                let each = frame.associations.iter().zip(ids).filter(|(_, id)| **id != 0);
                out.extend(each.map(|(a, id)| Detection {
                    scan,
                    engine_id: a.track_id,
                    id: *id,
                }));
            }
        }
        out
    }

    pub fn frozen_ids(&self) -> Vec<u64> {
        self.parts.iter().map(|(w, _)| w[0]).collect()
    }

    /// The tracks that are frozen or have a window.
    pub fn live(&self) -> BTreeSet<u64> {
        self.frozen_ids().into_iter().chain(self.detections().iter().map(|d| d.id)).collect()
    }

    /// What a refiner is made of, where the rule holds.
    pub fn kept(self) -> Kept {
        let part = |(w, x): &(&[u64], &[u64])| {
            let x: Vec<f64> = x.iter().map(|b| f64::from_bits(*b)).collect();
            FrozenPart {
                id: w[0],
                filter: *x.first_chunk().unwrap(),
                last_frame: w[1] as usize,
                last_ns: w[2] as i64,
                count: w[3] as u32,
                class_label: u32::try_from(w[4]).ok(),
                heights: x[8..8 + w[5] as usize].to_vec(),
            }
        };
        let [swaps, merges, splits, drops] = self.image.counters();
        Kept {
            first: self.image.first() as usize,
            frozen: self.parts.iter().map(part).collect(),
            scans: self.scans.into_iter().map(|s| s.expect("a frame that is not refused")).collect(),
            owners: self.owners,
            next_id: self.image.next_id(),
            counters: crate::fgo::FgoCounters {
                swaps,
                merges,
                splits,
                drops,
            },
        }
    }
}

/// "settings legal"
fn settings_legal(v: &View) -> bool {
    reading::legal(&v.image.settings())
}

/// "at most lag frames held"
fn at_most_lag_held(v: &View) -> bool {
    v.image.held() <= v.image.fields[0]
}

/// "none of which 5, 6 or 7 would refuse"
fn held_frames_pass(v: &View) -> bool {
    v.scans.iter().all(|s| s.is_some())
}

/// "first scan index + held ≤ 4,294,967,295"
fn scans_in_bounds(v: &View) -> bool {
    v.image.first().checked_add(v.image.held()).is_some_and(|n| n <= MOST_SCANS)
}

/// "ids rise"
fn ids_rise(v: &View) -> bool {
    v.frozen_ids().windows(2).all(|w| w[0] < w[1])
}

/// "are at least 1"
fn ids_at_least_one(v: &View) -> bool {
    v.live().iter().all(|id| *id >= 1)
}

/// "and below the next id"
fn ids_below_the_next(v: &View) -> bool {
    v.live().iter().all(|id| *id < v.image.next_id())
}

/// The next id itself: "ids begin at 1".
fn next_id_at_least_one(v: &View) -> bool {
    v.image.next_id() >= 1
}

/// "windows .. rising in scan": a window has at most one detection of a scan.
fn windows_rise_in_scan(v: &View) -> bool {
    let mut seen = BTreeSet::new();
    v.detections().iter().all(|d| seen.insert((d.scan, d.id)))
}

/// "those without engine id in clutter"
fn without_engine_id_in_clutter(v: &View) -> bool {
    v.detections().iter().all(|d| d.engine_id.is_some())
}

/// "an engine id in a window is owned by the holder of its latest (equal scans, the greater id)"
fn owned_by_the_holder_of_the_latest(v: &View) -> bool {
    let mut latest: BTreeMap<u64, (usize, u64)> = BTreeMap::new();
    for d in v.detections() {
        if let Some(e) = d.engine_id {
            let entry = latest.entry(e).or_insert((d.scan, d.id));
            *entry = (*entry).max((d.scan, d.id));
        }
    }
    latest.iter().all(|(e, (_, id))| v.owners.iter().any(|o| o == &(*e, *id)))
}

/// "a frozen part has count 1 to first"
fn frozen_count(v: &View) -> bool {
    v.parts.iter().all(|(w, _)| (1..=v.image.first()).contains(&w[3]))
}

/// "1 to 5 heights"
fn frozen_heights(v: &View) -> bool {
    v.parts.iter().all(|(w, _)| (1..=5).contains(&w[5]))
}

/// "last frame before first"
fn frozen_last_frame(v: &View) -> bool {
    v.parts.iter().all(|(w, _)| w[1] < v.image.first())
}

/// "time in bounds"
fn frozen_time(v: &View) -> bool {
    v.parts.iter().all(|(w, _)| (-MOST_TIME..=MOST_TIME).contains(&(w[2] as i64)))
}

/// "9's sum holds": frozen tracks + detections in track windows do not exceed 128.
fn sum_of_nine_holds(v: &View) -> bool {
    v.image.fields[FROZEN_PARTS].saturating_add(v.detections().len() as u64) <= 128
}

/// "owner entries have distinct engine ids"
fn owners_distinct(v: &View) -> bool {
    let mut seen = BTreeSet::new();
    v.owners.iter().all(|(e, _)| seen.insert(*e))
}

/// "live owners"
fn owners_live(v: &View) -> bool {
    let live = v.live();
    v.owners.iter().all(|(_, id)| live.contains(id))
}

/// "at most 256"
fn owners_at_most_256(v: &View) -> bool {
    v.image.fields[OWNED_IDS] <= OWNED as u64
}

type Clause = (&'static str, fn(&View) -> bool);

const REFINER: [Clause; 19] = [
    ("settings_legal", settings_legal),
    ("at_most_lag_held", at_most_lag_held),
    ("held_frames_pass", held_frames_pass),
    ("scans_in_bounds", scans_in_bounds),
    ("ids_rise", ids_rise),
    ("ids_at_least_one", ids_at_least_one),
    ("ids_below_the_next", ids_below_the_next),
    ("next_id_at_least_one", next_id_at_least_one),
    ("windows_rise_in_scan", windows_rise_in_scan),
    ("without_engine_id_in_clutter", without_engine_id_in_clutter),
    ("owned_by_the_holder_of_the_latest", owned_by_the_holder_of_the_latest),
    ("frozen_count", frozen_count),
    ("frozen_heights", frozen_heights),
    ("frozen_last_frame", frozen_last_frame),
    ("frozen_time", frozen_time),
    ("sum_of_nine_holds", sum_of_nine_holds),
    ("owners_distinct", owners_distinct),
    ("owners_live", owners_live),
    ("owners_at_most_256", owners_at_most_256),
];

/// The clauses of the refiner's rule that are broken.
pub fn broken(v: &View) -> Vec<&'static str> {
    REFINER.iter().filter(|(_, holds)| !holds(v)).map(|(name, _)| *name).collect()
}

// ---- the smoother's: lag and C are in bounds here, else 2 is the answer

/// The held frames, the oldest first; none where one is malformed.
pub fn held_frames(s: &SmootherImage) -> Option<Vec<LidarFrameOutput>> {
    let frame = |k: u64| {
        let (words, numbers) = s.look(s.slot(k));
        let (w, x) = frames::lengths(words, s.fields[MOST])?;
        frames::frame(&words[..w], &numbers[..x], s.fields[MOST])
    };
    (0..s.fields[HELD_FRAMES].min(s.fields[LAG] + 1)).map(frame).collect()
}

/// "density finite"
fn density_finite(s: &SmootherImage) -> bool {
    f64::from_bits(s.fields[DENSITY]).is_finite()
}

/// "at most lag frames held"
fn at_most_lag_frames_held(s: &SmootherImage) -> bool {
    s.fields[HELD_FRAMES] <= s.fields[LAG]
}

/// "each well formed"
fn held_frames_well_formed(s: &SmootherImage) -> bool {
    held_frames(s).is_some()
}

type SmootherClause = (&'static str, fn(&SmootherImage) -> bool);

const SMOOTHER: [SmootherClause; 3] = [
    ("density_finite", density_finite),
    ("at_most_lag_frames_held", at_most_lag_frames_held),
    ("held_frames_well_formed", held_frames_well_formed),
];

/// The clauses of the smoother's rule that are broken.
pub fn smoother_broken(s: &SmootherImage) -> Vec<&'static str> {
    SMOOTHER.iter().filter(|(_, holds)| !holds(s)).map(|(name, _)| *name).collect()
}
