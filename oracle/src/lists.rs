//! The track lists: a second reader and writer, written from document 01, "The list record", beside the library's.
use crate::faults::{self, Fault, Kind, Met, Shape};
use crate::ffi;
use crate::lent::Lent;
use crate::rng::Rng;
use crate::tally::Tally;

pub const COUNTS: usize = 32;
pub const DIMENSIONS: usize = 9;

/// The fields of a track: its state, and its covariance's lower triangle.
pub fn fields(d: usize) -> usize {
    d + d * (d + 1) / 2
}

pub struct Read {
    pub dimension: usize,
    /// The tracks' fields, one track after the other.
    pub values: Vec<f64>,
    /// Where each record starts, and where the last one ends.
    pub starts: Vec<usize>,
}

/// Reads a list, or answers the number of the first question that it fails.
pub fn read(list: &[u8]) -> Result<Read, u32> {
    let [count, dimension, ..] = *list else { return Err(9) };
    if count > 32 {
        return Err(10);
    }
    if !(1..=9).contains(&dimension) {
        return Err(11);
    }
    let f = fields(dimension as usize);
    let mut rest = &list[2..];
    let mut take = |n: usize| -> Result<&[u8], u32> {
        let (part, after) = rest.split_at_checked(n).ok_or(12u32)?;
        rest = after;
        Ok(part)
    };
    let mut values = Vec::new();
    let mut starts = vec![2];
    for _ in 0..count {
        let map = take(f.div_ceil(8))?;
        let mut end = starts[starts.len() - 1] + map.len();
        let stands = |k: usize| map[k / 8] >> (k % 8) & 1 == 1;
        if (f..map.len() * 8).any(stands) {
            return Err(13);
        }
        for k in 0..f {
            if !stands(k) {
                values.push(0.0);
                continue;
            }
            let value = f64::from_le_bytes(take(8)?.try_into().unwrap());
            end += 8;
            if !value.is_finite() {
                return Err(14);
            }
            if value.to_bits() == 0 {
                return Err(15);
            }
            values.push(value);
        }
        starts.push(end);
    }
    if !rest.is_empty() {
        return Err(16);
    }
    Ok(Read { dimension: dimension as usize, values, starts })
}

/// Writes a list, or answers the number of the first question that is not met; a buffer's length is not asked here.
pub fn write(count: usize, dimension: usize, values: &[f64]) -> Result<Vec<u8>, u32> {
    if count > 32 {
        return Err(10);
    }
    if !(1..=9).contains(&dimension) {
        return Err(11);
    }
    let f = fields(dimension);
    if values.len() != count * f {
        return Err(2);
    }
    if values.iter().any(|x| !x.is_finite()) {
        return Err(14);
    }
    let mut list = vec![count as u8, dimension as u8];
    for track in values.chunks(f) {
        let mut map = vec![0u8; f.div_ceil(8)];
        for (k, x) in track.iter().enumerate() {
            if x.to_bits() != 0 {
                map[k / 8] |= 1 << (k % 8);
            }
        }
        list.extend(map);
        for x in track.iter().filter(|x| x.to_bits() != 0) {
            list.extend(x.to_le_bytes());
        }
    }
    Ok(list)
}

/// The part of an accepted list that is the record at an offset; empty elsewhere.
pub fn record<'a>(list: &'a [u8], read: &Result<Read, u32>, offset: usize) -> &'a [u8] {
    let Ok(read) = read else { return &[] };
    match read.starts.iter().position(|start| *start == offset) {
        Some(i) if i + 1 < read.starts.len() => &list[offset..read.starts[i + 1]],
        _ => &[],
    }
}

/// The comparisons of the library's calls with the ones above.
pub struct Compared {
    reads: Tally,
    writes: Tally,
    records: Tally,
}

/// The most values of a list, and the length of the longest one.
pub const MOST_VALUES: usize = 32 * 54;
pub const LONGEST: usize = 14_050;

const READ_LIST: &str = "read_list";
const WRITE_LIST: &str = "write_list";
const RECORD: &str = "record";

/// The questions of a reader, in order: the lent values come last.
const READS: &[u32] = &[9, 10, 11, 12, 13, 14, 15, 16, 2];
const WRITES: &[u32] = &[10, 11, 2, 14, 20];

/// Each number is met so many times at least.
const LEAST: u64 = 100;

/// What the three calls are lent. The values of a list are finite.
pub fn shapes() -> [Shape; 3] {
    let values = Kind::Doubles { slice: true, nan: false, zero: true };
    [
        Shape {
            name: READ_LIST,
            reads: 1,
            writes: vec![values, Kind::Whole, Kind::Whole],
            partly: vec![0],
            refuses: READS,
            orders: [12, 13, 14, 15, 16].map(|first| (first, 2)).to_vec(),
            others: vec![],
        },
        Shape {
            name: WRITE_LIST,
            reads: 1,
            writes: vec![Kind::Bytes, Kind::Whole],
            partly: vec![0],
            refuses: WRITES,
            orders: vec![(10, 11), (10, 2), (10, 14), (11, 2), (11, 14), (2, 14), (14, 20)],
            others: vec![],
        },
        Shape {
            name: RECORD,
            reads: 1,
            writes: vec![Kind::Whole, Kind::Whole],
            partly: vec![],
            refuses: &[],
            orders: vec![],
            others: vec![Fault::WhereEmpty(0)],
        },
    ]
}

/// The writer's questions that are not met, each asked by itself.
fn unmet(count: usize, dimension: usize, values: &[f64], room: usize) -> Vec<u32> {
    let f = fields(dimension.clamp(1, 9));
    let stored = values.iter().filter(|x| x.to_bits() != 0).count();
    let questions = [
        (10, count <= COUNTS),
        (11, (1..=DIMENSIONS).contains(&dimension)),
        (2, Some(values.len()) == count.checked_mul(f)),
        (14, values.iter().all(|x| x.is_finite())),
        (20, room >= 2 + count.min(COUNTS) * f.div_ceil(8) + 8 * stored),
    ];
    questions.iter().filter(|(_, met)| !met).map(|(question, _)| *question).collect()
}

impl Compared {
    fn new() -> Compared {
        Compared {
            reads: Tally::refusing(READ_LIST, READS, LEAST),
            writes: Tally::refusing(WRITE_LIST, WRITES, LEAST),
            records: Tally::new(RECORD),
        }
    }

    /// Reads a list into `room` values.
    fn read_into(&mut self, list: &mut Lent<u8>, wanted: &Result<Read, u32>, room: usize) {
        let mut values = Lent::<f64>::marked(room);
        let (mut count, mut dimension) = (Lent::<usize>::marked(1), Lent::<usize>::marked(1));
        let mut number = ffi::read_list(list.slice(), values.slice_mut(), count.one(), dimension.one());
        let (number_wanted, written) = match wanted {
            Ok(read) if room >= read.values.len() => (0, &read.values[..]),
            Ok(_) => (2, &[][..]),
            Err(number) => (*number, &[][..]),
        };
        let head = [0, 1].map(|at| list.slice().get(at).map_or(0, |byte| *byte as usize));
        faults::plant(READ_LIST, || Met {
            number: &mut number,
            // The reader's last question can be asked of a list with a count and a dimension.
            also: if number_wanted >= 12 && room < head[0] * fields(head[1]) { vec![2] } else { vec![] },
            wrong: vec![],
            reads: vec![list],
            writes: vec![(&mut values, written.len()), (&mut count, 1), (&mut dimension, 1)],
        });
        let told = |at: usize| if number_wanted == 0 { &head[at..at + 1] } else { &[] };
        let agrees = number == number_wanted
            && values.begins_with(written)
            && count.begins_with(told(0))
            && dimension.begins_with(told(1))
            && list.is_untouched();
        self.reads.refused(number_wanted);
        self.reads.case(agrees, || {
            format!(
                "{:02x?} into {room}: answers {number}, {}, {}; wanted {number_wanted}, or other memory",
                list.slice(),
                count.slice()[0],
                dimension.slice()[0],
            )
        });
    }

    /// Writes a list into `room` bytes.
    fn write_into(
        &mut self,
        count: usize,
        dimension: usize,
        values: &[f64],
        wanted: &Result<Vec<u8>, u32>,
        room: usize,
    ) {
        let mut lent = Lent::holding(values);
        let (mut bytes, mut length) = (Lent::<u8>::marked(room), Lent::<usize>::marked(1));
        let mut number = ffi::write_list(count, dimension, lent.slice(), bytes.slice_mut(), length.one());
        let (number_wanted, written) = match wanted {
            Ok(list) if room >= list.len() => (0, &list[..]),
            Ok(_) => (20, &[][..]),
            Err(number) => (*number, &[][..]),
        };
        faults::plant(WRITE_LIST, || Met {
            number: &mut number,
            also: unmet(count, dimension, values, room),
            wrong: vec![],
            reads: vec![&mut lent],
            writes: vec![(&mut bytes, written.len()), (&mut length, 1)],
        });
        let told = [written.len()];
        let agrees = number == number_wanted
            && bytes.begins_with(written)
            && length.begins_with(if number_wanted == 0 { &told } else { &[] })
            && lent.is_untouched();
        self.writes.refused(number_wanted);
        self.writes.case(agrees, || {
            format!(
                "count {count}, dimension {dimension}, {values:?} into {room}: answers {number}, {}; wanted {number_wanted}, or other memory",
                length.slice()[0],
            )
        });
    }

    /// Asks for the record at an offset. The part starts there, an empty one too.
    fn record_at(&mut self, list: &mut Lent<u8>, wanted: &Result<Read, u32>, offset: usize) {
        let (mut start, mut length) = (Lent::<usize>::marked(1), Lent::<usize>::marked(1));
        ffi::record(list.slice(), offset, start.one(), length.one());
        let part = record(list.slice(), wanted, offset).len();
        let mut number = 0;
        faults::plant(RECORD, || Met {
            number: &mut number,
            also: vec![],
            wrong: vec![],
            reads: vec![list],
            writes: vec![(&mut start, 1), (&mut length, 1)],
        });
        let agrees = start.begins_with(&[offset]) && length.begins_with(&[part]) && list.is_untouched();
        if part == 0 {
            self.records.empty();
        }
        self.records.case(agrees, || {
            let (start, length) = (start.slice()[0], length.slice()[0]);
            format!("{:02x?} at {offset}: start {start}, length {length}, not {part}", list.slice())
        });
    }

    /// A list of any kind: read into enough room, and its records at the first places and some others.
    fn any(&mut self, list: &[u8], rng: &mut Rng) {
        let wanted = read(list);
        let mut lent = Lent::holding(list);
        let needed = wanted.as_ref().map_or_else(|_| rng.one_of(&[0, 2, 9, 60]), |read| read.values.len());
        let room = match rng.below(3) {
            0 => needed,
            1 => needed + 1 + rng.below(9) as usize,
            _ => needed.saturating_sub(1 + rng.below(3) as usize),
        };
        self.read_into(&mut lent, &wanted, room);
        self.record_at(&mut lent, &wanted, 2);
        self.record_at(&mut lent, &wanted, rng.below(list.len() as u64 + 3) as usize);
    }

    /// A good list: read into one value less, exactly enough and more; written back into one byte less, exactly enough and
    /// more; and every record, with places where none starts.
    fn good(&mut self, list: &[u8]) {
        let wanted = read(list);
        let mut lent = Lent::holding(list);
        let read = wanted.as_ref().expect("a good list");
        let count = list[0] as usize;
        let needed = read.values.len();
        for room in [needed.saturating_sub(1), needed, needed + 7] {
            self.read_into(&mut lent, &wanted, room);
        }
        let written = write(count, read.dimension, &read.values);
        assert!(written.as_deref() == Ok(list), "the second writer does not give back what the second reader read");
        for room in [list.len() - 1, list.len(), list.len() + 7] {
            self.write_into(count, read.dimension, &read.values, &written, room);
        }
        for start in &read.starts {
            for offset in [start - 1, *start, start + 1] {
                self.record_at(&mut lent, &wanted, offset);
            }
        }
        for offset in [0, 1, list.len() + 1, usize::MAX] {
            self.record_at(&mut lent, &wanted, offset);
        }
    }
}

/// A finite field, often one that a list leaves out or nearly does.
fn field(rng: &mut Rng) -> f64 {
    match rng.below(8) {
        0 | 1 => 0.0,
        2 => -0.0,
        3 => rng.one_of(&[1.0, f64::MAX, f64::MIN, f64::MIN_POSITIVE, f64::from_bits(1), -f64::from_bits(1)]),
        4 => f64::from_bits(rng.below(0x7FF0_0000_0000_0000) | rng.below(2) << 63),
        _ => rng.unit() * 100.0,
    }
}

/// The fields of so many tracks.
pub fn tracks(rng: &mut Rng, count: usize, dimension: usize) -> Vec<f64> {
    let zeros = rng.below(4);
    (0..count * fields(dimension)).map(|_| if zeros == 0 { 0.0 } else { field(rng) }).collect()
}

/// A good list of a random count and dimension; mostly short.
fn good_list(rng: &mut Rng) -> Vec<u8> {
    let dimension = 1 + rng.below(DIMENSIONS as u64) as usize;
    let count = if rng.below(8) == 0 { rng.below(33) } else { rng.below(4) } as usize;
    write(count, dimension, &tracks(rng, count, dimension)).unwrap()
}

/// Bytes that begin as a list does, more often than not.
fn random_bytes(rng: &mut Rng) -> Vec<u8> {
    let mut list: Vec<u8> = (0..rng.below(40)).map(|_| rng.bits() as u8).collect();
    if list.len() >= 2 && rng.below(8) != 0 {
        list[0] = rng.below(4) as u8;
        list[1] = 1 + rng.below(3) as u8;
    }
    if list.len() >= 3 && rng.below(2) == 0 {
        list[2] &= (1 << fields(list[1].clamp(1, 2) as usize)) - 1;
    }
    list
}

/// Every list of up to so many bytes.
fn short_lists(compared: &mut Compared, rng: &mut Rng, longest: u32) {
    for length in 0..=longest {
        for number in 0..1u32 << (8 * length) {
            compared.any(&number.to_le_bytes()[..length as usize], rng);
        }
    }
}

/// Every list that is cut short, or has one byte more, or one bit turned.
fn damaged(compared: &mut Compared, rng: &mut Rng, list: &[u8]) {
    for length in 0..list.len() {
        compared.any(&list[..length], rng);
    }
    let mut other = list.to_vec();
    other.push(rng.one_of(&[0, 1, 255]));
    compared.any(&other, rng);
    other.pop();
    for bit in 0..8 * list.len() {
        other[bit / 8] ^= 1 << (bit % 8);
        compared.any(&other, rng);
        other[bit / 8] ^= 1 << (bit % 8);
    }
}

/// What the writer refuses: counts and dimensions past their ends, values too few or too many or not finite, no room; the
/// first question that is not met gives the number.
fn refused_writes(compared: &mut Compared, rng: &mut Rng) {
    let count = rng.one_of(&[0, 1, 2, 31, 32, 33, 34, 255, 256, 288, usize::MAX]);
    let dimension = rng.one_of(&[0, 1, 2, 3, 8, 9, 10, 128, 129, 257, usize::MAX]);
    let f = fields(dimension.clamp(1, 9));
    let needed = count.min(32) * f;
    let given = match rng.below(4) {
        0 => needed.saturating_sub(1),
        1 => needed + 1,
        _ => needed,
    };
    let mut values: Vec<f64> = (0..given).map(|_| field(rng)).collect();
    if given > 0 && rng.below(2) == 0 {
        let at = rng.below(given as u64) as usize;
        values[at] = rng.one_of(&[f64::NAN, -f64::NAN, f64::INFINITY, f64::NEG_INFINITY]);
    }
    let wanted = write(count, dimension, &values);
    let length = wanted.as_ref().map_or(rng.below(LONGEST as u64) as usize, Vec::len);
    let room = rng.one_of(&[0, length.saturating_sub(1), length, length + 1]);
    compared.write_into(count, dimension, &values, &wanted, room);
}

/// How much of each kind is run.
pub struct Amount {
    /// Good lists of each count and dimension.
    pub each: usize,
    pub damaged: usize,
    pub random: usize,
    pub refused_writes: usize,
    /// Whether every list of up to 3 bytes is read, or up to 2.
    pub all_short: bool,
}

pub fn amount(long: bool) -> Amount {
    let times = if long { 40 } else { 1 };
    Amount {
        each: 2 * times,
        damaged: 300 * times,
        random: 100_000 * times,
        refused_writes: 100_000 * times,
        all_short: true,
    }
}

/// Runs all of it, and answers the number of differences.
pub fn run(amount: &Amount) -> u64 {
    let mut rng = Rng::new(7);
    let mut compared = Compared::new();
    for turn in 0..amount.random {
        let list = random_bytes(&mut rng);
        compared.any(&list, &mut rng);
        compared.reads.done(turn + 1, amount.random);
    }
    for turn in 0..amount.refused_writes {
        refused_writes(&mut compared, &mut rng);
        compared.writes.done(turn + 1, amount.refused_writes);
    }
    for turn in 0..amount.damaged {
        let list = good_list(&mut rng);
        if list.len() < 600 {
            damaged(&mut compared, &mut rng, &list);
        }
        compared.reads.done(turn + 1, amount.damaged);
    }
    for dimension in 1..=DIMENSIONS {
        for count in 0..=COUNTS {
            for _ in 0..amount.each {
                let values = tracks(&mut rng, count, dimension);
                compared.good(&write(count, dimension, &values).unwrap());
            }
        }
        compared.reads.done(dimension, DIMENSIONS);
    }
    short_lists(&mut compared, &mut rng, if amount.all_short { 3 } else { 2 });
    compared.reads.close() + compared.writes.close() + compared.records.close()
}
