//! Calls of a smoother on what its caller keeps: document 01's refusals in the table's order, then the published smoother.
use crate::frames::{self, Lists};
use crate::image::*;
use crate::refiner_calls::{unless_broken, unless_short, Answer, Refusal, Room};
use crate::rule;
use crate::smoother::FixedLagSmoother;

/// What the caller keeps and lends, and the published smoother in that state: none where a cell was written or another window lent since it was last called.
pub struct Smoother {
    pub image: SmootherImage,
    /// The lengths of the window that is lent.
    window: (usize, usize),
    /// Whether these were said, and so stay for good.
    said: bool,
    live: Option<FixedLagSmoother>,
}

impl Smoother {
    /// All zeros, and an empty window.
    pub fn new() -> Self {
        Smoother {
            image: SmootherImage::new(),
            window: (0, 0),
            said: false,
            live: None,
        }
    }

    /// The lengths of the window that is lent.
    pub fn window(&self) -> (usize, usize) {
        self.window
    }

    /// Lends a window of these lengths from now on.
    pub fn lend(&mut self, window: (usize, usize)) {
        (self.window, self.said, self.live) = (window, true, None);
    }

    /// Writes a cell; none where there is no such cell.
    pub fn put(&mut self, place: u64, index: u64, value: u64) -> Option<()> {
        self.live = None;
        self.image.put(place, index, value)
    }

    /// "a setting out of bounds or not finite" is 1, then "window buffers not of the length below" 2; else a new smoother, and the
    /// window is cleared.
    pub fn open(&mut self, lag: u64, density: u64, most: u64) -> Result<(), Refusal> {
        let asked = window_of(lag, most);
        if !self.said {
            (self.window, self.live) = (asked.unwrap_or((0, 0)), None);
        }
        if asked.is_none() || !f64::from_bits(density).is_finite() {
            return Err(1.into());
        }
        if asked != Some(self.window) {
            return Err(2.into());
        }
        self.image.fields = [lag, density, most, 0, 0];
        self.image.words[..self.window.0].fill(0);
        self.image.numbers[..self.window.1].fill(0);
        self.live = None;
        Ok(())
    }

    /// The published smoother in the state that is kept, where 2, 3 and 4 do not refuse.
    fn called(&mut self, room: Room) -> Result<&mut FixedLagSmoother, Refusal> {
        let s = &self.image;
        // "window buffers not of the length below, or a later call's state has lag or C out of bounds"
        if window_of(s.fields[LAG], s.fields[MOST]) != Some(self.window) {
            return Err(2.into());
        }
        if self.live.is_none() {
            unless_broken(rule::smoother_broken(s))?;
        }
        unless_short(room)?;
        let made = || {
            let held = rule::held_frames(s).expect("frames that are well formed");
            FixedLagSmoother::holding(s.fields[LAG] as usize, f64::from_bits(s.fields[DENSITY]), held)
        };
        Ok(self.live.get_or_insert_with(made))
    }

    /// The oldest frame leaves its slot, which is cleared, as much of it as the frame took.
    fn left(&mut self) {
        let most = self.image.fields[MOST];
        let (words, numbers) = self.image.cells(self.image.slot(0));
        let (w, x) = frames::lengths(words, most).expect("a frame");
        words[..w].fill(0);
        numbers[..x].fill(0);
        self.image.fields[OLDEST] = self.image.slot(1);
        self.image.fields[HELD_FRAMES] -= 1;
    }

    pub fn push(&mut self, f: &Lists, room: Room) -> Answer {
        let most = self.image.fields[MOST];
        let live = self.called(room)?;
        let frame = frames::frame(&f.words, &f.numbers, most).ok_or(5)?;
        let mut emitted = live.push(frame);
        assert!(emitted.len() <= 1, "at most one frame leaves");
        let (words, numbers) = self.image.cells(self.image.slot(self.image.fields[HELD_FRAMES]));
        words[..f.words.len()].copy_from_slice(&f.words);
        numbers[..f.numbers.len()].copy_from_slice(&f.numbers);
        self.image.fields[HELD_FRAMES] += 1;
        if !emitted.is_empty() {
            self.left();
        }
        Ok(emitted.pop())
    }

    pub fn take(&mut self, room: Room) -> Answer {
        let frame = self.called(room)?.take().ok_or(13)?;
        self.left();
        Ok(Some(frame))
    }
}
