//! A refined frame as document 01's words and numbers, there and back, and when these are well formed. Written from the document, apart from the project's code.
use crate::engine::*;
use std::io::Write;

/// A frame in words, and the bits of its numbers.
pub struct Lists {
    pub words: Vec<u64>,
    pub numbers: Vec<u64>,
}

/// The bits of a number, where all NaNs are one.
pub fn bits(x: f64) -> u64 {
    if x.is_nan() {
        0x7ff8_0000_0000_0000
    } else {
        x.to_bits()
    }
}

fn mode_number(m: TrackingMode) -> u64 {
    match m {
        TrackingMode::LidarOnly => 0,
        TrackingMode::CameraAssociated => 1,
        TrackingMode::CameraAssisted => 2,
    }
}

pub fn outcome_number(o: &str) -> u64 {
    match o {
        "updated" => 0,
        "spawned" => 1,
        _ => 2,
    }
}

fn words(f: &LidarFrameOutput) -> Vec<u64> {
    let mut w = vec![
        f.timestamp_ns as u64,
        mode_number(f.mode),
        f.tracks.len() as u64,
        f.associations.len() as u64,
        f.sensors.len() as u64,
        f.smoothed as u64,
    ];
    for t in &f.tracks {
        assert_eq!(t.prediction_only, t.age_since_spatial_update_ns > 0);
        w.extend([
            t.track_id,
            (t.lifecycle == "confirmed") as u64,
            t.last_spatial_update_ns.expect("a last time") as u64,
            t.age_since_spatial_update_ns as u64,
            t.class_label.map_or(1 << 32, u64::from),
            t.observation_times_count as u64,
        ]);
    }
    let unmatched: Vec<u64> = f.tracks.iter().filter(|t| t.prediction_only).map(|t| t.track_id).collect();
    assert_eq!(unmatched, f.unmatched_track_ids);
    for a in &f.associations {
        w.extend([
            a.observation_index as u64,
            a.track_id.unwrap_or(0),
            outcome_number(&a.outcome),
            a.cost.is_some() as u64,
        ]);
    }
    w.extend(f.sensors.iter().map(|s| *s as u64));
    w
}

fn numbers(f: &LidarFrameOutput) -> Vec<u64> {
    let mut n = Vec::new();
    for t in &f.tracks {
        n.extend(t.position.iter().chain(&t.velocity).chain(&t.covariance).map(|x| bits(*x)));
    }
    n.extend(f.associations.iter().map(|a| bits(a.cost.unwrap_or(0.0))));
    n
}

pub fn lists(f: &LidarFrameOutput) -> Lists {
    Lists {
        words: words(f),
        numbers: numbers(f),
    }
}

/// The two lines of a frame in full.
pub fn print(out: &mut impl Write, f: &Lists) {
    write!(out, "words").unwrap();
    for w in &f.words {
        write!(out, " {w}").unwrap();
    }
    write!(out, "\nnumbers").unwrap();
    for n in &f.numbers {
        write!(out, " {n:016x}").unwrap();
    }
    writeln!(out).unwrap();
}

/// Tracks, associations and sensors, by the first words of a frame; none where these are out of bounds: "the same counts, codes and bound on the time (smoothed
/// 0 or 1 ..), at most C tracks".
fn counts(words: &[u64], most: u64) -> Option<[usize; 3]> {
    let &[time, mode, tracks, associations, sensors, smoothed] = words.get(..6)?.first_chunk()?;
    let bound = (1i64 << 62) - 1;
    let fits = (-bound..=bound).contains(&(time as i64)) && mode <= 2 && tracks <= most && associations <= 32 && sensors <= 8 && smoothed <= 1;
    fits.then_some([tracks as usize, associations as usize, sensors as usize])
}

/// How many words and numbers a frame has by its first words, none where these are out of bounds.
pub fn lengths(words: &[u64], most: u64) -> Option<(usize, usize)> {
    let [tracks, associations, sensors] = counts(words, most)?;
    Some((6 + 6 * tracks + 4 * associations + sensors, 42 * tracks + associations))
}

fn track(time: i64, row: &[u64], state: &[u64]) -> Option<TrackOutput> {
    let age = row[3] as i64;
    let state: Vec<f64> = state.iter().map(|b| f64::from_bits(*b)).collect();
    Some(TrackOutput {
        track_id: row[0],
        lifecycle: ["tentative", "confirmed"].get(row[1] as usize)?.to_string(),
        state_timestamp_ns: time,
        last_spatial_update_ns: Some(row[2] as i64),
        last_camera_support_ns: None,
        age_since_spatial_update_ns: age,
        prediction_only: age > 0,
        position: state[..3].to_vec(),
        velocity: state[3..6].to_vec(),
        covariance: state[6..].to_vec(),
        class_label: if row[4] == 1 << 32 { None } else { Some(row[4].try_into().ok()?) },
        class_prior: None,
        contributing_sensors: Vec::new(),
        observation_times_count: row[5].try_into().ok()?,
        confidence: None,
    })
}

fn association(row: &[u64], cost: u64) -> Option<LidarAssociationOutput> {
    Some(LidarAssociationOutput {
        observation_index: row[0] as usize,
        track_id: (row[1] != 0).then_some(row[1]),
        outcome: ["updated", "spawned", "unmatched"].get(row[2] as usize)?.to_string(),
        cost: match (row[3], cost) {
            (0, 0) => None,
            (1, b) => Some(f64::from_bits(b)),
            _ => return None,
        },
    })
}

/// A smoother's frame from its words and the bits of its numbers, or none where it is malformed; with at most so many tracks.
pub fn frame(words: &[u64], numbers: &[u64], most: u64) -> Option<LidarFrameOutput> {
    if lengths(words, most)? != (words.len(), numbers.len()) {
        return None;
    }
    let [tracks, associations, _] = counts(words, most)?;
    let (rows, rest) = words[6..].split_at(6 * tracks);
    let (links, sensors) = rest.split_at(4 * associations);
    let (states, costs) = numbers.split_at(42 * tracks);
    let time = words[0] as i64;
    let tracks: Vec<TrackOutput> = rows
        .chunks(6)
        .zip(states.chunks(42))
        .map(|(w, x)| track(time, w, x))
        .collect::<Option<_>>()?;
    Some(LidarFrameOutput {
        mode: [TrackingMode::LidarOnly, TrackingMode::CameraAssociated, TrackingMode::CameraAssisted][words[1] as usize],
        timestamp_ns: time,
        unmatched_track_ids: tracks.iter().filter(|t| t.prediction_only).map(|t| t.track_id).collect(),
        tracks,
        observations: Vec::new(),
        associations: links.chunks(4).zip(costs).map(|(w, c)| association(w, *c)).collect::<Option<_>>()?,
        pose_correction: None,
        smoothed: words[5] == 1,
        sensors: sensors.iter().map(|s| u32::try_from(*s).ok()).collect::<Option<_>>()?,
    })
}
