//! The records that the published refiner and smoother take and give, as far as they use them.

#[derive(Debug, Clone, Copy, PartialEq, Eq)]
pub enum TrackingMode {
    LidarOnly,
    CameraAssociated,
    CameraAssisted,
}

#[derive(Debug, Clone, PartialEq)]
pub struct TrackOutput {
    pub track_id: u64,
    pub lifecycle: String,
    pub state_timestamp_ns: i64,
    pub last_spatial_update_ns: Option<i64>,
    pub last_camera_support_ns: Option<i64>,
    pub age_since_spatial_update_ns: i64,
    pub prediction_only: bool,
    pub position: Vec<f64>,
    pub velocity: Vec<f64>,
    pub covariance: Vec<f64>,
    pub class_label: Option<u32>,
    pub class_prior: Option<Vec<f64>>,
    pub contributing_sensors: Vec<u32>,
    pub observation_times_count: u32,
    pub confidence: Option<f64>,
}

#[derive(Debug, Clone, PartialEq)]
pub struct LidarAssociationOutput {
    pub observation_index: usize,
    pub track_id: Option<u64>,
    pub outcome: String,
    pub cost: Option<f64>,
}

#[derive(Debug, Clone, PartialEq)]
pub struct LidarFrameOutput {
    pub mode: TrackingMode,
    pub timestamp_ns: i64,
    pub tracks: Vec<TrackOutput>,
    pub observations: Vec<Vec<f64>>,
    pub associations: Vec<LidarAssociationOutput>,
    pub unmatched_track_ids: Vec<u64>,
    pub pose_correction: Option<Vec<f64>>,
    pub smoothed: bool,
    /// The project's own: document 01's words carry the frame's sensors in any case.
    pub sensors: Vec<u32>,
}
