//! A list of calls of a refiner and of a smoother as the program `calls` reads it, and what it prints.
use crate::digest;
use crate::frames::{self, Lists};
use crate::image::{self, RefinerImage};
use crate::reading::{number, numbers};
use crate::refiner_calls::{self, Answer, Refusal, Room};
use crate::smoother_calls::Smoother;
use std::io::Write;

/// The most bytes of a list.
const LIST: usize = 262_144;
/// The longest output buffers that may be lent, which are as long as the longest lists of a pushed frame.
const BUFFERS: (usize, usize) = (4096, 8192);

/// One call.
enum Call<'a> {
    Open(&'a [u8]),
    Push(&'a [u8]),
    Take,
    Counters,
    Lend(Room),
    Write(u64, u64, u64),
    Digest,
    OpenSmoother(u64, u64, u64),
    PushLast,
    PushFrame(Lists),
    TakeSmoothed,
    LendWindow(Room),
    WriteSmoother(u64, u64, u64),
}

/// Two lengths up to their bounds.
fn lengths(words: u64, numbers: u64, most: Room) -> Option<Room> {
    (words <= most.0 as u64 && numbers <= most.1 as u64).then_some((words as usize, numbers as usize))
}

/// A call by its code and what follows; none where it is bad.
fn call(code: u64, s: &[u8]) -> Option<Call<'_>> {
    let words = if code == 2 { Vec::new() } else { numbers(s) };
    Some(match (code, s.len()) {
        (1, 88) => Call::Open(s),
        (2, _) => Call::Push(s),
        (4, 0) => Call::Take,
        (5, 0) => Call::Counters,
        (6, 16) => Call::Lend(lengths(words[0], words[1], BUFFERS)?),
        (7, 24) => Call::Write(words[0], words[1], words[2]),
        (9, 0) => Call::Digest,
        (11, 24) => Call::OpenSmoother(words[0], words[1], words[2]),
        (12, 0) => Call::PushLast,
        (13, 16..) => {
            let (w, x) = lengths(words[0], words[1], BUFFERS)?;
            if s.len() != 16 + 8 * (w + x) {
                return None;
            }
            Call::PushFrame(Lists {
                words: words[2..2 + w].to_vec(),
                numbers: words[2 + w..].to_vec(),
            })
        }
        (14, 0) => Call::TakeSmoothed,
        (16, 16) => Call::LendWindow(lengths(words[0], words[1], image::WINDOW)?),
        (17, 24) => Call::WriteSmoother(words[0], words[1], words[2]),
        _ => return None,
    })
}

/// The next call of a list, and what comes after it; none where it is bad.
fn next(s: &[u8]) -> Option<(Call<'_>, &[u8])> {
    let (head, rest) = s.split_at_checked(8)?;
    let (what, rest) = rest.split_at_checked(number(&head[4..]) as usize)?;
    Some((call(number(&head[..4]), what)?, rest))
}

/// What a list is played with.
pub struct Player {
    pub refiner: RefinerImage,
    pub smoother: Smoother,
    room: Room,
    /// The frame that the refiner gave last.
    last: Lists,
    /// The output buffers, at their full length.
    output: Lists,
    /// Whether the broken clauses stand after `refused 3`.
    pub names: bool,
}

impl Player {
    pub fn new() -> Self {
        Player {
            refiner: RefinerImage::new(),
            smoother: Smoother::new(),
            room: (910, 5408),
            last: Lists {
                words: Vec::new(),
                numbers: Vec::new(),
            },
            output: Lists {
                words: vec![0; BUFFERS.0],
                numbers: vec![0; BUFFERS.1],
            },
            names: false,
        }
    }

    fn refused(&self, out: &mut impl Write, r: Refusal) {
        let names = if self.names { r.broken } else { Vec::new() };
        let words: Vec<String> = [r.number.to_string()].into_iter().chain(names.iter().map(|n| n.to_string())).collect();
        writeln!(out, "refused {}", words.join(" ")).unwrap();
    }

    fn opened(&self, out: &mut impl Write, answer: Result<(), Refusal>) {
        match answer {
            Ok(()) => writeln!(out, "opened").unwrap(),
            Err(r) => self.refused(out, r),
        }
    }

    /// Prints an answer; the frame, if there is one, which is written into the output buffers.
    fn answered(&mut self, out: &mut impl Write, answer: Answer) -> Option<Lists> {
        match answer {
            Ok(Some(f)) => {
                let f = frames::lists(&f);
                frames::print(out, &f);
                self.output.words[..f.words.len()].copy_from_slice(&f.words);
                self.output.numbers[..f.numbers.len()].copy_from_slice(&f.numbers);
                return Some(f);
            }
            Ok(None) => writeln!(out, "held").unwrap(),
            Err(r) => self.refused(out, r),
        }
        None
    }

    fn refined(&mut self, out: &mut impl Write, answer: Answer) {
        if let Some(f) = self.answered(out, answer) {
            self.last = f;
        }
    }

    /// Plays one call and prints its answer; none where it names a cell that is not there.
    fn play_one(&mut self, out: &mut impl Write, call: Call) -> Option<()> {
        match call {
            Call::Open(settings) => {
                let answer = refiner_calls::open(&mut self.refiner, settings);
                self.opened(out, answer);
            }
            Call::Push(body) => {
                let answer = refiner_calls::push(&mut self.refiner, body, self.room);
                self.refined(out, answer);
            }
            Call::Take => {
                let answer = refiner_calls::take(&mut self.refiner, self.room);
                self.refined(out, answer);
            }
            Call::Counters => match refiner_calls::counters(&self.refiner) {
                Ok([a, b, c, d]) => writeln!(out, "counters {a} {b} {c} {d}").unwrap(),
                Err(r) => self.refused(out, r),
            },
            Call::Lend(room) => self.room = room,
            Call::Write(place, index, value) => self.refiner.put(place, index, value)?,
            Call::Digest => {
                let refiner = digest::of_refiner(&self.refiner);
                let smoother = digest::of_smoother(&self.smoother.image);
                let output = digest::of_output(&self.output);
                writeln!(out, "digest {refiner:016x} {smoother:016x} {output:016x}").unwrap();
            }
            Call::OpenSmoother(lag, density, most) => {
                let answer = self.smoother.open(lag, density, most);
                self.opened(out, answer);
            }
            Call::PushLast => {
                let answer = self.smoother.push(&self.last, self.room);
                self.answered(out, answer);
            }
            Call::PushFrame(f) => {
                let answer = self.smoother.push(&f, self.room);
                self.answered(out, answer);
            }
            Call::TakeSmoothed => {
                let answer = self.smoother.take(self.room);
                self.answered(out, answer);
            }
            Call::LendWindow(window) => self.smoother.lend(window),
            Call::WriteSmoother(place, index, value) => self.smoother.put(place, index, value)?,
        }
        Some(())
    }

    /// Plays a list up to its end or its first bad call.
    pub fn play(&mut self, out: &mut impl Write, mut s: &[u8]) {
        if s.len() > LIST {
            return writeln!(out, "bad call").unwrap();
        }
        while !s.is_empty() {
            let played = next(s).and_then(|(call, rest)| self.play_one(out, call).map(|()| rest));
            match played {
                Some(rest) => s = rest,
                None => return writeln!(out, "bad call").unwrap(),
            }
        }
    }

    /// What the callers keep, and what they lend: the refiner's fields, bodies, columns, owners, tracks and filters, the smoother's fields, words and numbers; the
    /// lengths of the window and of the buffers.
    pub fn cells(&self) -> Vec<u8> {
        let (r, s, w) = (&self.refiner, &self.smoother.image, self.smoother.window());
        let lengths = [w.0, w.1, self.room.0, self.room.1].map(|n| n as u64);
        let mut out: Vec<u8> = r.fields.iter().flat_map(|c| c.to_le_bytes()).collect();
        out.extend(&r.bodies);
        for cells in [
            &r.columns,
            &r.owners,
            &r.tracks,
            &r.filters,
            &s.fields.to_vec(),
            &s.words,
            &s.numbers,
            &lengths.to_vec(),
        ] {
            out.extend(cells.iter().flat_map(|c| c.to_le_bytes()));
        }
        out
    }
}
