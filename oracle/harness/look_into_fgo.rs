
// ---- the project's own: what the refusals 8, 9 and 10 look at; a refiner made of what a caller keeps, and read back; finish, one frame at a time

/// A frozen part.
pub struct FrozenPart {
    pub id: u64,
    /// x, y, vx, vy, p00, p01, p11, t.
    pub filter: [f64; 8],
    pub last_frame: usize,
    pub last_ns: i64,
    pub count: u32,
    pub class_label: Option<u32>,
    /// Oldest first.
    pub heights: Vec<f64>,
}

/// What a caller keeps of a refiner, besides its settings.
pub struct Kept {
    pub first: usize,
    /// The held frames, each with the track of each association, 0 for clutter.
    pub scans: Vec<(LidarFrameOutput, Vec<u64>)>,
    pub frozen: Vec<FrozenPart>,
    pub owners: Vec<(u64, u64)>,
    pub next_id: u64,
    pub counters: FgoCounters,
}

impl FixedLagRefiner {
    /// Scans accepted so far.
    pub fn accepted(&self) -> usize {
        self.first + self.scans.len()
    }

    /// The number of the oldest scan held.
    pub fn first(&self) -> usize {
        self.first
    }

    /// The next id.
    pub fn next_id(&self) -> u64 {
        self.next_id
    }

    /// Frozen tracks, and detections in track windows.
    pub fn frozen_and_detections(&self) -> (usize, usize) {
        (
            self.tracks.values().filter(|t| t.prefix.is_some()).count(),
            self.tracks.values().map(|t| t.window.len()).sum(),
        )
    }

    /// Engine ids with a live owner.
    pub fn owned_engine_ids(&self) -> Vec<u64> {
        self.engine_owner
            .iter()
            .filter(|(_, id)| self.tracks.contains_key(id))
            .map(|(e, _)| *e)
            .collect()
    }

    /// The owner of an engine id, if it has a live one.
    pub fn owner(&self, engine_id: u64) -> Option<u64> {
        self.engine_owner.get(&engine_id).copied().filter(|id| self.tracks.contains_key(id))
    }

    /// The track of each association of each held scan, 0 for clutter.
    pub fn ids(&self) -> Vec<Vec<u64>> {
        let holder: HashMap<Det, u64> = self.tracks.iter().flat_map(|(id, t)| t.window.iter().map(|d| (*d, *id))).collect();
        let id = |det: Det| {
            let id = holder.get(&det).copied().unwrap_or(0);
            assert_eq!(id == 0, self.clutter.contains(&det), "in one window or in clutter");
            id
        };
        let scan = |(k, s): (usize, &Scan)| s.output.associations.iter().map(|a| id((self.first + k, a.observation_index))).collect();
        self.scans.iter().enumerate().map(scan).collect()
    }

    /// The frozen parts, ids rising.
    pub fn frozen(&self) -> Vec<FrozenPart> {
        let part = |id: u64, p: &Prefix| FrozenPart {
            id,
            filter: [p.kf.x[0], p.kf.x[1], p.kf.v[0], p.kf.v[1], p.kf.p00, p.kf.p01, p.kf.p11, p.kf.t],
            last_frame: p.last_frame,
            last_ns: p.last_ns,
            count: p.count,
            class_label: p.class_label,
            heights: p.heights.iter().copied().collect(),
        };
        self.tracks.iter().filter_map(|(id, t)| t.prefix.as_ref().map(|p| part(*id, p))).collect()
    }

    /// A refiner in the state that a caller keeps.
    pub fn from_kept(config: FgoConfig, kept: Kept) -> Self {
        let mut r = FixedLagRefiner::new(config);
        r.first = kept.first;
        r.next_id = kept.next_id;
        r.counters = kept.counters;
        r.engine_owner = kept.owners.into_iter().collect();
        for p in kept.frozen {
            let [x, y, vx, vy, p00, p01, p11, t] = p.filter;
            let kf = Kf {
                x: [x, y],
                v: [vx, vy],
                p00,
                p01,
                p11,
                t,
            };
            let prefix = Prefix {
                kf,
                last_frame: p.last_frame,
                last_ns: p.last_ns,
                count: p.count,
                heights: p.heights.into(),
                class_label: p.class_label,
            };
            r.tracks.insert(
                p.id,
                Track {
                    prefix: Some(prefix),
                    window: Vec::new(),
                },
            );
        }
        for (frame, ids) in kept.scans {
            let g = r.accepted();
            for (a, id) in frame.associations.iter().zip(ids) {
                let det = (g, a.observation_index);
                if let Some(engine_id) = a.track_id {
                    r.engine_of.insert(det, engine_id);
                }
                if id == 0 {
                    r.clutter.insert(det);
                } else {
                    r.tracks.entry(id).or_default().window.push(det);
                }
            }
            let t = frame.timestamp_ns as f64 * 1e-9;
            r.scans.push_back(Scan { output: frame, t });
        }
        r
    }

    /// The oldest held frame; none where none is held.
    pub fn take(&mut self) -> Option<LidarFrameOutput> {
        (!self.scans.is_empty()).then(|| self.freeze_oldest())
    }
}
