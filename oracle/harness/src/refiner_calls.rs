//! Calls of a refiner on what its caller keeps: document 01's refusals in the table's order, then the published refiner, made of what is kept and read back.
use crate::engine::LidarFrameOutput;
use crate::fgo::FixedLagRefiner;
use crate::image::*;
use crate::reading;
use crate::rule::{self, View};
use std::collections::BTreeSet;

/// A refusal; it has the names of the broken clauses where it is 3.
pub struct Refusal {
    pub number: u32,
    pub broken: Vec<&'static str>,
}

impl From<u32> for Refusal {
    fn from(number: u32) -> Self {
        Refusal { number, broken: Vec::new() }
    }
}

/// A frame, none where push holds it, or a refusal.
pub type Answer = Result<Option<LidarFrameOutput>, Refusal>;

/// The lengths of the output buffers that are lent.
pub type Room = (usize, usize);

/// Refusal 3.
pub fn unless_broken(broken: Vec<&'static str>) -> Result<(), Refusal> {
    match broken.is_empty() {
        true => Ok(()),
        false => Err(Refusal { number: 3, broken }),
    }
}

/// Refusal 4: "output buffers under 910 words or 5,408 numbers".
pub fn unless_short(room: Room) -> Result<(), Refusal> {
    match room.0 < 910 || room.1 < 5408 {
        true => Err(4.into()),
        false => Ok(()),
    }
}

/// Refusal 8: "4,294,967,295 scans accepted, or next id or a counter above 2^60".
fn eight(v: &View) -> bool {
    let accepted = v.image.first() + v.image.held();
    accepted >= 4_294_967_295 || v.image.next_id() > 1 << 60 || v.image.counters().iter().any(|n| *n > 1 << 60)
}

/// Refusal 9: "frozen tracks + detections in track windows + new associations with an id exceed 128".
fn nine(v: &View, new: &[u64]) -> bool {
    v.parts.len() + v.detections().len() + new.len() > 128
}

/// Refusal 10: "engine ids with a live owner, joined with the frame's, exceed 256".
fn ten(v: &View, new: &[u64]) -> bool {
    let joined: BTreeSet<u64> = v.owners.iter().map(|(e, _)| *e).chain(new.iter().copied()).collect();
    joined.len() > 256
}

/// "a setting out of bounds or not finite" is 1; else a new refiner, and the memory is cleared.
pub fn open(image: &mut RefinerImage, settings: &[u8]) -> Result<(), Refusal> {
    let fields = reading::numbers(settings);
    if !reading::legal(&reading::settings(&fields)) {
        return Err(1.into());
    }
    image.fields = [0; 20];
    image.fields[..11].copy_from_slice(&fields);
    image.fields[NEXT_ID] = 1;
    image.clear();
    Ok(())
}

/// The published refiner in the state that is kept.
fn refiner(v: View) -> FixedLagRefiner {
    FixedLagRefiner::from_kept(v.image.settings(), v.kept())
}

/// The owner table: entries keep their place, engine ids that are new come after them in the order in which the frame names them, and those that have no live
/// owner go: what they took is cleared.
fn put_owners(image: &mut RefinerImage, r: &FixedLagRefiner, new: &[u64]) {
    let mut engine_ids: Vec<u64> = image.owners.chunks(2).map(|p| p[0]).take(image.fields[OWNED_IDS] as usize).collect();
    for e in new {
        if !engine_ids.contains(e) {
            engine_ids.push(*e);
        }
    }
    let entries: Vec<[u64; 2]> = engine_ids.iter().filter_map(|e| r.owner(*e).map(|id| [*e, id])).collect();
    assert_eq!(entries.len(), r.owned_engine_ids().len());
    image.fields[OWNED_IDS] = entries.len() as u64;
    image.owners[..2 * engine_ids.len()].fill(0);
    for (cells, entry) in image.owners.chunks_mut(2).zip(entries) {
        cells.copy_from_slice(&entry);
    }
}

/// The frozen parts after a frame was emitted: those that are forgotten, also where they are new, are cleared, and so are the heights that a part does not have.
fn put_parts(image: &mut RefinerImage, r: &FixedLagRefiner, emitted: &LidarFrameOutput) {
    let parts = r.frozen();
    let mut ids: BTreeSet<u64> = image.tracks.chunks(PART).map(|p| p[0]).take(image.fields[FROZEN_PARTS] as usize).collect();
    ids.extend(emitted.associations.iter().filter_map(|a| a.track_id));
    image.tracks[..PART * ids.len()].fill(0);
    image.filters[..FILTER * ids.len()].fill(0);
    image.fields[FROZEN_PARTS] = parts.len() as u64;
    for ((w, x), p) in image.tracks.chunks_mut(PART).zip(image.filters.chunks_mut(FILTER)).zip(parts) {
        let class = p.class_label.map_or(1 << 32, u64::from);
        w.copy_from_slice(&[p.id, p.last_frame as u64, p.last_ns as u64, p.count as u64, class, p.heights.len() as u64]);
        for (cell, number) in x.iter_mut().zip(p.filter.iter().chain(&p.heights)) {
            *cell = number.to_bits();
        }
    }
}

/// The slot of scan n is cleared, as much of it as the scan took.
fn clear_slot(image: &mut RefinerImage, n: u64) {
    let size = image.body(n).len();
    let associations = reading::frame(image.body(n)).expect("a held frame").associations.len();
    image.slot(n)[..size].fill(0);
    image.column(n)[..1 + associations].fill(0);
}

/// What is kept of a refiner after a call; new are the engine ids that the call's frame named.
fn put_back(image: &mut RefinerImage, r: &FixedLagRefiner, new: &[u64], emitted: Option<&LidarFrameOutput>) {
    if let Some(f) = emitted {
        clear_slot(image, image.first());
        put_parts(image, r, f);
    }
    let ids = r.ids();
    image.fields[FIRST] = r.first() as u64;
    image.fields[HELD] = ids.len() as u64;
    for (k, ids) in ids.iter().enumerate() {
        image.column((r.first() + k) as u64)[1..1 + ids.len()].copy_from_slice(ids);
    }
    put_owners(image, r, new);
    image.fields[NEXT_ID] = r.next_id();
    let k = r.counters();
    image.fields[COUNTERS..].copy_from_slice(&[k.swaps, k.merges, k.splits, k.drops]);
    let broken = rule::broken(&View::of(image));
    assert!(broken.is_empty(), "the published refiner left a state that breaks {broken:?}");
}

pub fn push(image: &mut RefinerImage, body: &[u8], room: Room) -> Answer {
    let v = View::of(image);
    unless_broken(rule::broken(&v))?;
    unless_short(room)?;
    let frame = reading::frame(body)?;
    let new: Vec<u64> = frame.associations.iter().filter_map(|a| a.track_id).collect();
    for (refused, number) in [(eight(&v), 8), (nine(&v, &new), 9), (ten(&v, &new), 10)] {
        if refused {
            return Err(number.into());
        }
    }
    let mut r = refiner(v);
    let n = r.accepted() as u64;
    let mut emitted = r.push(frame);
    assert!(emitted.len() <= 1, "at most one frame leaves");
    image.slot(n)[..body.len()].copy_from_slice(body);
    image.column(n)[0] = body.len() as u64;
    let emitted = emitted.pop();
    put_back(image, &r, &new, emitted.as_ref());
    Ok(emitted)
}

pub fn take(image: &mut RefinerImage, room: Room) -> Answer {
    let v = View::of(image);
    unless_broken(rule::broken(&v))?;
    unless_short(room)?;
    let mut r = refiner(v);
    let frame = r.take().ok_or(13)?;
    put_back(image, &r, &[], Some(&frame));
    Ok(Some(frame))
}

pub fn counters(image: &RefinerImage) -> Result<[u64; 4], Refusal> {
    unless_broken(rule::broken(&View::of(image)))?;
    Ok(image.counters())
}
