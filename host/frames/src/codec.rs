//! Frames and answers as bytes, written from documents 01 and 02 alone. Numbers have the high byte first.

use cases::calls::{Answer, Call, Given};
use cases::shapes::Shape;
use records::{
    Contact, FeaturePair, HullLists, HullSize, Outcome, Point, Quat, SatCache, Transform, Vec3,
    MAX_MANIFOLD_POINTS,
};

/// The kinds of frames; an answer's is 80 higher.
pub const ROOT: u8 = 0x10;
pub const FLIP: u8 = 0x11;
pub const CALL: u8 = 0x12;

/// Where a call's frame has its capacity, its cache, its transform, and its first hull; a hull begins with its unit and its sizes,
/// two bytes each.
pub const CAPACITY: usize = 1;
pub const CACHE: usize = 5;
pub const TRANSFORM: usize = 13;
pub const HULL_A: usize = 41;
pub const UNIT_AND_SIZES: usize = 8;

/// Where a call's answer has its status, its cache, how many points there are, its normal, its first point, the places of the
/// points' candidates, and the mark that a retired type was read; and how many bytes a point and the whole have. Document 01's
/// answer ends before the places, "four bytes at its end" (document 02, d); the mark is "a last byte in frame 92" (j).
pub const STATUS: usize = 1;
pub const NEXT_CACHE: usize = 2;
pub const COUNT: usize = 10;
pub const NORMAL: usize = 11;
pub const POINTS: usize = 23;
pub const A_POINT: usize = 20;
pub const PLACES: usize = 103;
pub const RETIRED: usize = 107;
pub const LONGEST_ANSWER: usize = 108;

/// Where a cache has its type and its hit.
pub const TYPE: usize = 4;
pub const HIT: usize = 7;

/// What a frame asks.
pub enum Asked {
    Root(u32),
    Flip(FeaturePair),
    Call(Given),
}

/// The numbers of faults.
#[derive(Debug, Clone, Copy, PartialEq, Eq)]
#[repr(u8)]
pub enum Fault {
    Owner = 0x08,
    NotHex = 0x21,
    NoKind = 0x22,
    Length = 0x23,
    TooLong = 0x24,
}

impl Fault {
    pub const ALL: [Fault; 5] = [
        Fault::Owner,
        Fault::NotHex,
        Fault::NoKind,
        Fault::Length,
        Fault::TooLong,
    ];

    pub fn answer(self) -> Vec<u8> {
        vec![0xff, self as u8]
    }
}

/// "ff22 no such kind (an empty line too), ff23 length (a hull's by its V, H, F as sent)".
pub fn decode(frame: &[u8]) -> Result<Asked, Fault> {
    let (&kind, rest) = frame.split_first().ok_or(Fault::NoKind)?;
    let mut bytes = Bytes(rest);
    let asked = match kind {
        ROOT => bytes.word().map(Asked::Root),
        FLIP => bytes.pair().map(Asked::Flip),
        CALL => bytes.given().map(Asked::Call),
        _ => return Err(Fault::NoKind),
    };
    match (asked, bytes.0) {
        (Some(asked), []) => Ok(asked),
        _ => Err(Fault::Length),
    }
}

/// What is left to read; nothing is read where there is too little.
struct Bytes<'a>(&'a [u8]);

impl Bytes<'_> {
    fn take(&mut self, count: usize) -> Option<&[u8]> {
        let (taken, left) = self.0.split_at_checked(count)?;
        self.0 = left;
        Some(taken)
    }

    fn array<const N: usize>(&mut self) -> Option<[u8; N]> {
        self.take(N)?.try_into().ok()
    }

    fn word(&mut self) -> Option<u32> {
        self.array().map(u32::from_be_bytes)
    }

    fn half(&mut self) -> Option<usize> {
        self.array().map(u16::from_be_bytes).map(usize::from)
    }

    fn float(&mut self) -> Option<f32> {
        self.word().map(f32::from_bits)
    }

    fn floats(&mut self, count: usize) -> Option<Vec<f32>> {
        let words = self.take(4 * count)?.as_chunks().0.iter();
        Some(words.map(|&word| f32::from_be_bytes(word)).collect())
    }

    fn vector(&mut self) -> Option<Vec3> {
        Some(Vec3 {
            x: self.float()?,
            y: self.float()?,
            z: self.float()?,
        })
    }

    /// "pair (owner1, index1, owner2, index2)".
    fn pair(&mut self) -> Option<FeaturePair> {
        let [owner1, index1, owner2, index2] = self.array()?;
        Some(FeaturePair {
            owner1,
            index1,
            owner2,
            index2,
        })
    }

    /// "separation, type, index_a, index_b, hit".
    fn cache(&mut self) -> Option<SatCache> {
        let separation = self.word()?;
        let [kind, index_a, index_b, hit] = self.array()?;
        Some(SatCache {
            separation,
            kind,
            index_a,
            index_b,
            hit,
        })
    }

    /// "capacity (4), cache (8), position, quaternion with its scalar last, hull A, hull B".
    fn given(&mut self) -> Option<Given> {
        Some(Given {
            capacity: self.array().map(i32::from_be_bytes)?,
            cache: self.cache()?,
            transform: Transform {
                p: self.vector()?,
                q: Quat {
                    v: self.vector()?,
                    s: self.float()?,
                },
            },
            a: self.hull()?,
            b: self.hull()?,
        })
    }

    /// "V, H, F (2 bytes each), box low and high, x, y, z lists, vertex edges, half-edges (next, twin, origin, face, a
    /// byte each), face edges, planes"; and document 02, i: the unit "as two bytes before each hull's V". Lengths follow from V, H
    /// and F alone.
    fn hull(&mut self) -> Option<Shape> {
        let size = HullSize {
            unit: self.half()?,
            vertices: self.half()?,
            half_edges: self.half()?,
            faces: self.half()?,
        };
        let mut numbers = self.floats(6 + 3 * size.vertices.next_multiple_of(4))?;
        let links = self.take(size.vertices + 4 * size.half_edges + size.faces)?;
        let links = links.to_vec();
        numbers.extend(self.floats(4 * size.faces)?);
        Some(Shape {
            numbers,
            links,
            size,
        })
    }
}

pub fn root_frame(bits: u32) -> Vec<u8> {
    let mut frame = vec![ROOT];
    frame.extend(bits.to_be_bytes());
    frame
}

pub fn flip_frame(pair: FeaturePair) -> Vec<u8> {
    let mut frame = vec![FLIP];
    put_pair(&mut frame, pair);
    frame
}

/// Units and sizes above 65,535 lose their high bits, and lists go as they are, fitting or not.
pub fn call_frame(call: &Call) -> Vec<u8> {
    let mut frame = vec![CALL];
    frame.extend(call.capacity.to_be_bytes());
    put_cache(&mut frame, call.cache);
    let Transform { p, q } = call.transform;
    put_floats(&mut frame, &[p.x, p.y, p.z, q.v.x, q.v.y, q.v.z, q.s]);
    put_hull(&mut frame, call.a);
    put_hull(&mut frame, call.b);
    frame
}

fn put_hull(to: &mut Vec<u8>, hull: HullLists) {
    let size = hull.size;
    for count in [size.unit, size.vertices, size.half_edges, size.faces] {
        to.extend((count as u16).to_be_bytes());
    }
    let lists = 6 + 3 * usize::from(size.vertices as u16).next_multiple_of(4);
    let numbers = hull.numbers;
    let (before, planes) = numbers.split_at(lists.min(numbers.len()));
    put_floats(to, before);
    to.extend(hull.links);
    put_floats(to, planes);
}

fn put_floats(to: &mut Vec<u8>, floats: &[f32]) {
    to.extend(floats.iter().flat_map(|x| x.to_bits().to_be_bytes()));
}

fn put_cache(to: &mut Vec<u8>, cache: SatCache) {
    to.extend(cache.separation.to_be_bytes());
    to.extend([cache.kind, cache.index_a, cache.index_b, cache.hit]);
}

fn put_pair(to: &mut Vec<u8>, pair: FeaturePair) {
    to.extend([pair.owner1, pair.index1, pair.owner2, pair.index2]);
}

pub fn root_answer(bits: u32) -> Vec<u8> {
    let mut answer = root_frame(bits);
    answer[0] += 0x80;
    answer
}

pub fn flip_answer(pair: FeaturePair) -> Vec<u8> {
    let mut answer = flip_frame(pair);
    answer[0] += 0x80;
    answer
}

/// "92, status (a byte: 0 or the refusal), cache, count (a byte), normal, four points of position, separation, pair"; then the
/// four places of document 02's request d, and last the mark of its request j.
pub fn call_answer(answer: &Answer) -> Vec<u8> {
    let contact = answer.outcome.contact;
    let mut bytes = vec![CALL + 0x80, answer.outcome.status];
    put_cache(&mut bytes, answer.cache);
    bytes.push(contact.count);
    put_worked_out(&mut bytes, contact.normal);
    for point in &contact.points {
        put_worked_out(&mut bytes, point.position);
        bytes.extend(worked_out(point.separation));
        put_pair(&mut bytes, point.pair);
    }
    bytes.extend(contact.points.map(|point| point.place));
    bytes.push(answer.outcome.retired);
    bytes
}

/// What a call's answer says; none where it is no such answer.
pub fn read_answer(answer: &[u8]) -> Option<Answer> {
    let mut bytes = Bytes(answer.strip_prefix(&[CALL + 0x80])?);
    let [status] = bytes.array()?;
    let cache = bytes.cache()?;
    let [count] = bytes.array()?;
    let normal = bytes.vector()?;
    let mut points = [Point::UNUSED; MAX_MANIFOLD_POINTS];
    for point in &mut points {
        point.position = bytes.vector()?;
        point.separation = bytes.float()?;
        point.pair = bytes.pair()?;
    }
    let places: [u8; MAX_MANIFOLD_POINTS] = bytes.array()?;
    for (point, place) in points.iter_mut().zip(places) {
        point.place = place;
    }
    let [retired] = bytes.array()?;
    let contact = Contact {
        points,
        normal,
        count,
    };
    let outcome = Outcome {
        status,
        contact,
        retired,
    };
    bytes.0.is_empty().then_some(Answer { outcome, cache })
}

fn put_worked_out(to: &mut Vec<u8>, v: Vec3) {
    to.extend([v.x, v.y, v.z].into_iter().flat_map(worked_out));
}

/// "A NaN that the call works out and hands out becomes 7fc00000". Told by the bits, since rustc takes any NaN for any
/// other.
fn worked_out(x: f32) -> [u8; 4] {
    let bits = x.to_bits();
    let nan = bits & 0x7fff_ffff > 0x7f80_0000;
    if nan { 0x7fc0_0000 } else { bits }.to_be_bytes()
}
