//! Reading and writing the largest list beside plain Rust that asks the same questions and lends no memory of its own.
use crate::timer::line;
use oracle::ffi;
use oracle::lists::{fields, write, LONGEST, MOST_VALUES};
use oracle::rng::Rng;
use std::hint::black_box;

const TIMES: usize = 200;

/// The number of the eight bytes at the start.
fn field(bytes: &[u8]) -> u64 {
    u64::from_le_bytes(bytes[..8].try_into().unwrap())
}

fn is_finite(bits: u64) -> bool {
    bits >> 52 & 0x7FF != 0x7FF
}

/// Goes through a list and answers the first question that it fails; each field is handed over with its place.
fn walk(list: &[u8], mut each: impl FnMut(usize, u64)) -> Result<(usize, usize), u32> {
    if list.len() < 2 {
        return Err(9);
    }
    let (count, dimension) = (list[0] as usize, list[1] as usize);
    if count > 32 {
        return Err(10);
    }
    if !(1..=9).contains(&dimension) {
        return Err(11);
    }
    let f = fields(dimension);
    let map_len = f.div_ceil(8);
    let mut rest = &list[2..];
    for track in 0..count {
        if rest.len() < map_len {
            return Err(12);
        }
        let (map, after) = rest.split_at(map_len);
        rest = after;
        if !f.is_multiple_of(8) && map[map_len - 1] >> (f % 8) != 0 {
            return Err(13);
        }
        for k in 0..f {
            let mut bits = 0;
            if map[k / 8] >> (k % 8) & 1 == 1 {
                if rest.len() < 8 {
                    return Err(12);
                }
                bits = field(rest);
                rest = &rest[8..];
                if !is_finite(bits) {
                    return Err(14);
                }
                if bits == 0 {
                    return Err(15);
                }
            }
            each(track * f + k, bits);
        }
    }
    if !rest.is_empty() {
        return Err(16);
    }
    Ok((count, dimension))
}

/// Reads a list: all its questions first, so that a refusal writes nothing.
fn read_into(list: &[u8], values: &mut [f64]) -> Result<(usize, usize), u32> {
    let (count, dimension) = walk(list, |_, _| {})?;
    let values = values.get_mut(..count * fields(dimension)).ok_or(2u32)?;
    walk(list, |at, bits| values[at] = f64::from_bits(bits))
}

/// Writes a list: all its questions first.
fn write_into(count: usize, dimension: usize, values: &[f64], out: &mut [u8]) -> Result<usize, u32> {
    if count > 32 {
        return Err(10);
    }
    if !(1..=9).contains(&dimension) {
        return Err(11);
    }
    let f = fields(dimension);
    if values.len() != count * f {
        return Err(2);
    }
    let map_len = f.div_ceil(8);
    let mut length = 2 + count * map_len;
    for x in values {
        if !x.is_finite() {
            return Err(14);
        }
        length += if x.to_bits() == 0 { 0 } else { 8 };
    }
    let out = out.get_mut(..length).ok_or(20u32)?;
    out[0] = count as u8;
    out[1] = dimension as u8;
    let mut rest = &mut out[2..];
    for track in values.chunks_exact(f) {
        let (map, mut after) = rest.split_at_mut(map_len);
        map.fill(0);
        for (k, x) in track.iter().enumerate() {
            if x.to_bits() != 0 {
                map[k / 8] |= 1 << (k % 8);
                let (place, left) = after.split_at_mut(8);
                place.copy_from_slice(&x.to_le_bytes());
                after = left;
            }
        }
        rest = after;
    }
    Ok(length)
}

/// A list of 32 tracks of dimension 9, with so many of a hundred fields left out.
fn compare(left_out: u64) {
    let mut rng = Rng::new(19);
    let values: Vec<f64> = (0..MOST_VALUES).map(|_| if rng.below(100) < left_out { 0.0 } else { rng.unit() }).collect();
    let list = write(32, 9, &values).unwrap();
    let mut read = vec![0.0; MOST_VALUES];
    let mut theirs = read.clone();
    let (mut count, mut dimension, mut length) = (0, 0, 0);
    line(
        &format!("read_list, 32 of 9, {left_out} % left out"),
        TIMES,
        || {
            for _ in 0..TIMES {
                assert!(ffi::read_list(black_box(&list), black_box(&mut read), &mut count, &mut dimension) == 0);
            }
        },
        || {
            for _ in 0..TIMES {
                assert!(read_into(black_box(&list), black_box(&mut theirs)) == Ok((32, 9)));
            }
        },
    );
    assert!(read == values && theirs == values);
    let mut bytes = vec![0; LONGEST];
    let mut other = bytes.clone();
    line(
        &format!("write_list, 32 of 9, {left_out} % left out"),
        TIMES,
        || {
            for _ in 0..TIMES {
                assert!(ffi::write_list(32, 9, black_box(&values), black_box(&mut bytes), &mut length) == 0);
            }
        },
        || {
            for _ in 0..TIMES {
                assert!(write_into(32, 9, black_box(&values), black_box(&mut other)) == Ok(list.len()));
            }
        },
    );
    assert!(bytes[..length] == list && other[..length] == list);
}

pub fn run() {
    compare(0);
    compare(50);
}
