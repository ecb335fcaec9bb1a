//! The digests of what the callers keep and of the output buffers: the 64-bit FNV-1a hash over fields and arrays, in which all NaNs are one.
use crate::frames::{self, Lists};
use crate::image::*;

const BASIS: u64 = 0xcbf2_9ce4_8422_2325;
const PRIME: u64 = 0x0100_0000_01b3;

fn over(h: u64, bytes: &[u8]) -> u64 {
    bytes.iter().fold(h, |h, b| (h ^ u64::from(*b)).wrapping_mul(PRIME))
}

fn over_words(h: u64, words: &[u64]) -> u64 {
    words.iter().fold(h, |h, w| over(h, &w.to_le_bytes()))
}

fn over_numbers(h: u64, numbers: &[u64]) -> u64 {
    numbers.iter().fold(h, |h, x| over(h, &frames::bits(f64::from_bits(*x)).to_le_bytes()))
}

/// Fields, of which those from `from` to before `to` are numbers.
fn over_fields(fields: &[u64], from: usize, to: usize) -> u64 {
    let h = over_words(BASIS, &fields[..from]);
    over_words(over_numbers(h, &fields[from..to]), &fields[to..])
}

pub fn of_refiner(image: &RefinerImage) -> u64 {
    let h = over(over_fields(&image.fields, 1, 8), &image.bodies);
    let h = [&image.columns, &image.owners, &image.tracks].iter().fold(h, |h, cells| over_words(h, cells));
    over_numbers(h, &image.filters)
}

pub fn of_smoother(image: &SmootherImage) -> u64 {
    over_numbers(over_words(over_fields(&image.fields, 1, 2), &image.words), &image.numbers)
}

pub fn of_output(output: &Lists) -> u64 {
    over_numbers(over_words(BASIS, &output.words), &output.numbers)
}
