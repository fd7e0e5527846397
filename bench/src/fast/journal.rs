//! Journals: the checksum eight bytes at a time, records, and the replay, which tests the mesh once.

use super::{boxes, is_rule, list, load, note, split, starts, step, tables_agree};
use crate::tables::{BatchWorked, Counts, Panel, Point, Replayed, Tables};

const MARK: u32 = u32::from_le_bytes(*b"RPLJ");
const HEADER: usize = 20;
const HEAD: usize = 12;

/// What the low byte of a rest leaves after one byte more, after two, and so on to eight.
const LEFT: [[u32; 256]; 8] = {
    let mut left = [[0u32; 256]; 8];
    let mut byte = 0;
    while byte < 256 {
        let (mut rest, mut bit) = (byte as u32, 0);
        while bit < 8 {
            rest = (rest >> 1) ^ ((rest & 1) * 0xEDB8_8320);
            bit += 1;
        }
        left[0][byte] = rest;
        byte += 1;
    }
    let mut later = 1;
    while later < 8 {
        let mut byte = 0;
        while byte < 256 {
            let rest = left[later - 1][byte];
            left[later][byte] = rest >> 8 ^ left[0][rest as usize & 255];
            byte += 1;
        }
        later += 1;
    }
    left
};

/// CRC-32 as zlib has it.
fn crc32(bytes: &[u8]) -> u32 {
    let (eights, last) = bytes.as_chunks::<8>();
    let of_eights = eights.iter().fold(!0, |rest: u32, eight| {
        let low = (rest ^ number(eight, 0)).to_le_bytes();
        let high = &eight[4..];
        (0..4).fold(0, |sum, i| sum ^ LEFT[7 - i][low[i] as usize] ^ LEFT[3 - i][high[i] as usize])
    });
    !last.iter().fold(of_eights, |rest, &byte| rest >> 8 ^ LEFT[0][(rest as u8 ^ byte) as usize])
}

fn number(bytes: &[u8], place: usize) -> u32 {
    u32::from_le_bytes([bytes[place], bytes[place + 1], bytes[place + 2], bytes[place + 3]])
}

/// Writes a record to the front of a buffer, its body in two parts, and answers its length; or 0 where it does not fit.
fn record(buffer: &mut [u8], kind: u32, body: [&[u8]; 2]) -> usize {
    let end = HEAD + body[0].len() + body[1].len();
    let Some(buffer) = buffer.get_mut(..end + 4) else {
        return 0;
    };
    buffer[..4].copy_from_slice(&((end - HEAD) as u32).to_le_bytes());
    buffer[4..8].copy_from_slice(&kind.to_le_bytes());
    let checksum = crc32(&buffer[..8]);
    buffer[8..HEAD].copy_from_slice(&checksum.to_le_bytes());
    let middle = HEAD + body[0].len();
    buffer[HEAD..middle].copy_from_slice(body[0]);
    buffer[middle..end].copy_from_slice(body[1]);
    let checksum = crc32(&buffer[HEAD..end]);
    buffer[end..].copy_from_slice(&checksum.to_le_bytes());
    end + 4
}

pub fn record_load(buffer: &mut [u8], rule: u32, cage: &[u8]) -> usize {
    record(buffer, 1, [&rule.to_le_bytes(), cage])
}

pub fn record_refine(buffer: &mut [u8], triangle: u32) -> usize {
    record(buffer, 2, [&triangle.to_le_bytes(), &[]])
}

/// The journal of refines on tables of these slots.
pub fn of_refines(tables: &Tables, triangles: &[u32]) -> Vec<u8> {
    let slots = [tables.positions.len() / 3, tables.generations.len()].map(|slots| slots as u32);
    let mut journal = [MARK, 1, slots[0], slots[1]].map(u32::to_le_bytes).concat();
    journal.extend(crc32(&journal).to_le_bytes());
    let mut buffer = [0; 20];
    for &triangle in triangles {
        let length = record_refine(&mut buffer, triangle);
        journal.extend(&buffer[..length]);
    }
    journal
}

/// Why a replay stops, and the refusal of the next call.
type Stopped = (u32, u32);

/// What a replay works in.
pub struct Replay<'a> {
    pub tables: &'a mut Tables,
    pub counts: Counts,
    pub spares: &'a mut Tables,
    pub numbers: &'a mut [u32],
}

impl Replay<'_> {
    pub fn run(mut self, journal: &[u8], at: usize) -> Replayed {
        let stop = self.header_stop(journal);
        if stop != 0 {
            return Replayed { counts: self.counts, stop, ..Replayed::default() };
        }
        let mut is_sound = None;
        let (mut end, mut records) = (at.max(HEADER), 0);
        let (stop, refusal) = loop {
            match self.next(journal.get(end..).unwrap_or_default(), &mut is_sound) {
                Ok(length) => {
                    end += length;
                    records += 1;
                }
                Err(stopped) => break stopped,
            }
        };
        Replayed { counts: self.counts, stop, refusal, records, end }
    }

    fn header_stop(&self, bytes: &[u8]) -> u32 {
        let slots = [self.tables.positions.len() / 3, self.tables.generations.len()];
        match bytes.len() {
            0 => 1,
            1..HEADER => 2,
            _ if number(bytes, 16) != crc32(&bytes[..16]) => 3,
            _ if [number(bytes, 0), number(bytes, 4)] != [MARK, 1] => 4,
            _ if [number(bytes, 8), number(bytes, 12)].map(|number| number as usize) != slots => 6,
            _ => 0,
        }
    }

    /// Replays the record at the front, and answers its length.
    fn next(&mut self, bytes: &[u8], is_sound: &mut Option<Result<(), u32>>) -> Result<usize, Stopped> {
        if bytes.is_empty() {
            return Err((1, 0));
        }
        let head = bytes.get(..HEAD).ok_or((2, 0))?;
        let (size, kind) = (number(head, 0) as usize, number(head, 4));
        if number(head, 8) != crc32(&head[..8]) {
            return Err((3, 0));
        }
        let body = bytes.get(HEAD..HEAD + size + 4).ok_or((2, 0))?;
        let (body, checksum) = body.split_at(size);
        if number(checksum, 0) != crc32(body) {
            return Err((3, 0));
        }
        if !is_kind(kind, size) {
            return Err((4, 0));
        }
        if matches!(kind, 4 | 8) {
            let numbers = self.numbers.get_mut(..size / 4).ok_or((7, 0))?;
            numbers.iter_mut().zip(body.chunks_exact(4)).for_each(|(entry, four)| *entry = number(four, 0));
        }
        let worked = self.again(kind, body, is_sound).map_err(|refusal| (5, refusal))?;
        self.counts = worked;
        *is_sound = Some(Ok(()));
        Ok(HEAD + size + 4)
    }

    /// Makes the call of a record, and answers the counts after it.
    fn again(&mut self, kind: u32, body: &[u8], is_sound: &mut Option<Result<(), u32>>) -> Result<Counts, u32> {
        let Replay { tables, counts, spares, numbers } = self;
        let counts = *counts;
        if kind == 1 {
            let rule = number(body, 0);
            return match (tables_agree(tables), is_rule(rule)) {
                (false, _) => Err(1),
                (_, false) => Err(16),
                _ => load::load(tables, rule, &body[4..]),
            };
        }
        if matches!(kind, 4 | 5) {
            match (tables_agree(tables), list::sizes_fit(tables, spares)) {
                (true, false) => return Err(17),
                (true, true) if kind == 5 && !panel(body).is_good() => return Err(18),
                _ => {}
            }
        }
        (*is_sound.get_or_insert_with(|| starts(tables, counts).map(drop)))?;
        let done = |worked: BatchWorked| {
            if worked.refusal == 0 { Ok(worked.counts) } else { Err(worked.refusal) }
        };
        match kind {
            2 => Ok(split::refine(tables, counts, number(body, 0), &mut |_| ())?.counts),
            3 => Ok(step::whole_step(tables, counts)?.counts),
            4 => done(list::refine_list(tables, counts, &numbers[..body.len() / 4], spares)),
            5 => done(boxes::refine_box(tables, counts, panel(body), spares)),
            8 => note::take_back(tables, counts, &numbers[..body.len() / 4]).ok_or(21),
            _ if number(body, 0) < counts.triangles => {
                tables.locks[number(body, 0) as usize] = u8::from(kind == 6);
                Ok(counts)
            }
            _ => Err(8),
        }
    }
}

/// Whether a change of this kind may have a body of this size.
fn is_kind(kind: u32, size: usize) -> bool {
    match kind {
        1 => size >= 4,
        2 | 6 | 7 => size == 4,
        3 => size == 0,
        4 | 8 => size.is_multiple_of(4),
        5 => size == 28,
        _ => false,
    }
}

/// The box of a body.
fn panel(body: &[u8]) -> Panel {
    let [low, high] = [0, 12].map(|first| {
        let [x, y, z] = [0, 4, 8].map(|place| number(body, first + place) as i32);
        Point { x, y, z }
    });
    Panel { low, high, below: number(body, 24) }
}
