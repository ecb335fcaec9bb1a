//! Recordings, settings and frame bodies as document 01 has them, with its refusals 1, 5, 6, 7, 11 and 12. Written from the document, apart from the project's code.
use crate::engine::*;
use crate::fgo::FgoConfig;

pub fn number(s: &[u8]) -> u64 {
    s.iter().rev().fold(0, |n, b| n << 8 | *b as u64)
}

/// The 64-bit numbers of which bytes consist, as far as they are whole.
pub fn numbers(s: &[u8]) -> Vec<u64> {
    s.chunks_exact(8).map(|c| u64::from_le_bytes(c.try_into().unwrap())).collect()
}

fn real(s: &[u8]) -> f64 {
    f64::from_bits(number(s))
}

/// The eleven fields of the settings, in `FgoConfig` order.
pub fn settings(fields: &[u64]) -> FgoConfig {
    let real = |i: usize| f64::from_bits(fields[i]);
    FgoConfig {
        lag_frames: fields[0] as usize,
        radius_m: real(1),
        birth_cost: real(2),
        miss_cost: real(3),
        clutter_cost: real(4),
        accel_spectral_density: real(5),
        position_sigma_m: real(6),
        initial_velocity_variance: real(7),
        coast_ns: fields[8] as i64,
        forget_after_ns: fields[9] as i64,
        max_passes: fields[10] as usize,
    }
}

/// Whether 1 does not refuse them.
pub fn legal(c: &FgoConfig) -> bool {
    let floats = [
        c.radius_m,
        c.birth_cost,
        c.miss_cost,
        c.clutter_cost,
        c.accel_spectral_density,
        c.position_sigma_m,
        c.initial_velocity_variance,
    ];
    c.lag_frames <= 16 && c.max_passes <= 1000 && floats.iter().all(|x| x.is_finite())
}

pub fn recording(s: &[u8]) -> Result<(FgoConfig, Vec<&[u8]>), u32> {
    if s.len() > 65536 || s.len() < 92 {
        return Err(11);
    }
    let count = number(&s[88..92]) as usize;
    if count > 256 || s.len() < 92 + 8 * count {
        return Err(11);
    }
    let mut at = 92 + 8 * count;
    let mut bodies = Vec::new();
    for i in 0..count {
        let entry = &s[92 + 8 * i..100 + 8 * i];
        let (offset, length) = (number(&entry[..4]) as usize, number(&entry[4..]) as usize);
        if offset != at || s.len() - at < length {
            return Err(12);
        }
        bodies.push(&s[at..at + length]);
        at += length;
    }
    if at != s.len() {
        return Err(12);
    }
    Ok((settings(&numbers(&s[..88])), bodies))
}

/// A present byte with the bits of its value.
fn present(b: u8, value: u64) -> Result<Option<u64>, u32> {
    match (b, value) {
        (0, 0) => Ok(None),
        (1, v) => Ok(Some(v)),
        _ => Err(5),
    }
}

pub fn frame(s: &[u8]) -> Result<LidarFrameOutput, u32> {
    if s.len() < 16 {
        return Err(5);
    }
    let mode = match s[0] {
        0 => TrackingMode::LidarOnly,
        1 => TrackingMode::CameraAssociated,
        2 => TrackingMode::CameraAssisted,
        _ => return Err(5),
    };
    let [tracks, observations, associations, sensors] = [s[1], s[2], s[3], s[4]].map(usize::from);
    let time = number(&s[8..16]) as i64;
    let most = (1i64 << 62) - 1;
    let length = 16 + 16 * tracks + 4 * sensors + 24 * observations + 24 * associations;
    if tracks > 32
        || observations > 32
        || associations > 32
        || sensors > 8
        || (tracks == 0 && sensors > 0)
        || s[5..8] != [0; 3]
        || time < -most
        || time > most
        || s.len() != length
    {
        return Err(5);
    }
    let mut rest = &s[16..];
    let mut row = |n: usize| {
        let (a, b) = rest.split_at(n);
        rest = b;
        a
    };
    let mut engine_tracks = Vec::new();
    for _ in 0..tracks {
        let r = row(16);
        let class = present(r[12], number(&r[8..12]))?;
        if r[13..] != [0; 3] {
            return Err(5);
        }
        engine_tracks.push((number(&r[..8]), class));
    }
    let sensor_ids: Vec<u32> = (0..sensors).map(|_| number(row(4)) as u32).collect();
    let points: Vec<Vec<f64>> = (0..observations).map(|_| row(24).chunks(8).map(real).collect()).collect();
    let mut links = Vec::new();
    for _ in 0..associations {
        let r = row(24);
        let id = present(r[1], number(&r[8..16]))?;
        let outcome = match r[2] {
            0 => "updated",
            1 => "spawned",
            2 => "unmatched",
            _ => return Err(5),
        };
        let cost = present(r[3], number(&r[16..]))?;
        if r[4..8] != [0; 4] {
            return Err(5);
        }
        links.push(LidarAssociationOutput {
            observation_index: r[0] as usize,
            track_id: id,
            outcome: outcome.to_string(),
            cost: cost.map(f64::from_bits),
        });
    }
    if points.iter().flatten().any(|x| !x.is_finite()) {
        return Err(6);
    }
    for (j, a) in links.iter().enumerate() {
        let i = a.observation_index;
        if i >= observations || links[..j].iter().any(|b| b.observation_index == i) {
            return Err(7);
        }
    }
    let tracks = engine_tracks
        .into_iter()
        .map(|(id, class)| TrackOutput {
            track_id: id,
            lifecycle: String::new(),
            state_timestamp_ns: time,
            last_spatial_update_ns: None,
            last_camera_support_ns: None,
            age_since_spatial_update_ns: 0,
            prediction_only: false,
            position: Vec::new(),
            velocity: Vec::new(),
            covariance: Vec::new(),
            class_label: class.map(|c| c as u32),
            class_prior: None,
            contributing_sensors: sensor_ids.clone(),
            observation_times_count: 0,
            confidence: None,
        })
        .collect();
    Ok(LidarFrameOutput {
        mode,
        timestamp_ns: time,
        tracks,
        observations: points,
        associations: links,
        unmatched_track_ids: Vec::new(),
        pose_correction: None,
        smoothed: false,
        sensors: sensor_ids,
    })
}
