
// ---- the project's own: a smoother made of the frames that it holds; finish, one frame at a time

impl FixedLagSmoother {
    /// A smoother that holds these frames, the oldest first.
    pub fn holding(lag_frames: usize, accel_spectral_density: f64, frames: Vec<LidarFrameOutput>) -> Self {
        FixedLagSmoother {
            lag_frames,
            accel_spectral_density,
            frames: frames.into(),
        }
    }

    /// The oldest held frame, smoothed; none where none is held.
    pub fn take(&mut self) -> Option<LidarFrameOutput> {
        (!self.frames.is_empty()).then(|| self.emit_oldest())
    }
}
