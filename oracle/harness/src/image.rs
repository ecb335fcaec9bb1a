//! What the callers of a refiner and of a smoother keep between two calls: fields and lent memory, cell by cell, and where each thing lies in it.
use crate::fgo::FgoConfig;
use crate::reading;

pub const SLOTS: u64 = 17;
pub const BODY: usize = 2096;
pub const COLUMN: usize = 33;
pub const PART: usize = 6;
pub const FILTER: usize = 13;
pub const FROZEN: usize = 128;
pub const OWNED: usize = 256;

// the refiner's fields: 0 to 10 are its settings, 16 to 19 its counters
pub const FIRST: usize = 11;
pub const HELD: usize = 12;
pub const FROZEN_PARTS: usize = 13;
pub const OWNED_IDS: usize = 14;
pub const NEXT_ID: usize = 15;
pub const COUNTERS: usize = 16;

/// What the caller of a refiner keeps. Numbers are kept as their bits.
pub struct RefinerImage {
    pub fields: [u64; 20],
    pub bodies: Vec<u8>,
    pub columns: Vec<u64>,
    pub owners: Vec<u64>,
    pub tracks: Vec<u64>,
    pub filters: Vec<u64>,
}

fn put_in(cells: &mut [u64], index: u64, value: u64) -> Option<()> {
    *cells.get_mut(usize::try_from(index).ok()?)? = value;
    Some(())
}

impl RefinerImage {
    /// All zeros.
    pub fn new() -> Self {
        let slots = SLOTS as usize;
        RefinerImage {
            fields: [0; 20],
            bodies: vec![0; slots * BODY],
            columns: vec![0; slots * COLUMN],
            owners: vec![0; 2 * OWNED],
            tracks: vec![0; FROZEN * PART],
            filters: vec![0; FROZEN * FILTER],
        }
    }

    /// Writes a cell; none where there is no such cell, or where a byte would be over 255.
    pub fn put(&mut self, place: u64, index: u64, value: u64) -> Option<()> {
        match place {
            0 => put_in(&mut self.fields, index, value),
            1 => {
                *self.bodies.get_mut(usize::try_from(index).ok()?)? = u8::try_from(value).ok()?;
                Some(())
            }
            2 => put_in(&mut self.columns, index, value),
            3 => put_in(&mut self.owners, index, value),
            4 => put_in(&mut self.tracks, index, value),
            5 => put_in(&mut self.filters, index, value),
            _ => None,
        }
    }

    /// Clears the memory.
    pub fn clear(&mut self) {
        self.bodies.fill(0);
        for cells in [&mut self.columns, &mut self.owners, &mut self.tracks, &mut self.filters] {
            cells.fill(0);
        }
    }

    pub fn settings(&self) -> FgoConfig {
        reading::settings(&self.fields[..11])
    }

    pub fn first(&self) -> u64 {
        self.fields[FIRST]
    }

    pub fn held(&self) -> u64 {
        self.fields[HELD]
    }

    pub fn next_id(&self) -> u64 {
        self.fields[NEXT_ID]
    }

    pub fn counters(&self) -> [u64; 4] {
        *self.fields[COUNTERS..].first_chunk().unwrap()
    }

    /// The bytes of the slot of scan n.
    pub fn slot(&mut self, n: u64) -> &mut [u8] {
        let at = (n % SLOTS) as usize * BODY;
        &mut self.bodies[at..at + BODY]
    }

    /// The column of scan n: the body's length, and the track of each association.
    pub fn column(&mut self, n: u64) -> &mut [u64] {
        let at = (n % SLOTS) as usize * COLUMN;
        &mut self.columns[at..at + COLUMN]
    }

    /// The body of scan n. A length above that of a slot means none.
    pub fn body(&self, n: u64) -> &[u8] {
        let slot = (n % SLOTS) as usize;
        let length = self.columns[slot * COLUMN];
        let length = if length > BODY as u64 { 0 } else { length as usize };
        &self.bodies[slot * BODY..slot * BODY + length]
    }

    /// The track of each association of scan n, as many as a scan may have; 0 is clutter.
    pub fn ids(&self, n: u64) -> &[u64] {
        let at = (n % SLOTS) as usize * COLUMN;
        &self.columns[at + 1..at + COLUMN]
    }
}

// the smoother's fields
pub const LAG: usize = 0;
pub const DENSITY: usize = 1;
pub const MOST: usize = 2;
pub const OLDEST: usize = 3;
pub const HELD_FRAMES: usize = 4;

/// The longest window.
pub const WINDOW: (usize, usize) = (17 * (142 + 6 * 128), 17 * (32 + 42 * 128));

/// What the caller of a smoother keeps, in the longest window. Numbers are kept as their bits.
pub struct SmootherImage {
    pub fields: [u64; 5],
    pub words: Vec<u64>,
    pub numbers: Vec<u64>,
}

/// The window of a lag and C; none where these are out of bounds.
pub fn window_of(lag: u64, most: u64) -> Option<(usize, usize)> {
    let (lag, most) = (usize::try_from(lag).ok()?, usize::try_from(most).ok()?);
    (lag <= 16 && (1..=128).contains(&most)).then(|| ((lag + 1) * (142 + 6 * most), (lag + 1) * (32 + 42 * most)))
}

impl SmootherImage {
    /// All zeros.
    pub fn new() -> Self {
        SmootherImage {
            fields: [0; 5],
            words: vec![0; WINDOW.0],
            numbers: vec![0; WINDOW.1],
        }
    }

    /// Writes a cell; none where there is no such cell.
    pub fn put(&mut self, place: u64, index: u64, value: u64) -> Option<()> {
        match place {
            0 => put_in(&mut self.fields, index, value),
            1 => put_in(&mut self.words, index, value),
            2 => put_in(&mut self.numbers, index, value),
            _ => None,
        }
    }

    /// The slot of frame k, counted from the oldest; lag is in bounds.
    pub fn slot(&self, k: u64) -> u64 {
        let slots = self.fields[LAG] + 1;
        (self.fields[OLDEST] % slots + k) % slots
    }

    /// The words and numbers of a slot; C is in bounds.
    pub fn cells(&mut self, slot: u64) -> (&mut [u64], &mut [u64]) {
        let (slot, most) = (slot as usize, self.fields[MOST] as usize);
        let (w, x) = (142 + 6 * most, 32 + 42 * most);
        (&mut self.words[slot * w..(slot + 1) * w], &mut self.numbers[slot * x..(slot + 1) * x])
    }

    pub fn look(&self, slot: u64) -> (&[u64], &[u64]) {
        let (slot, most) = (slot as usize, self.fields[MOST] as usize);
        let (w, x) = (142 + 6 * most, 32 + 42 * most);
        (&self.words[slot * w..(slot + 1) * w], &self.numbers[slot * x..(slot + 1) * x])
    }
}
