//! Corners as the library is lent them: four numbers and four bytes each, in two lists of one record. There is room for two polygons.

use super::contacts::linked;
use super::{
    Accepted, ClipVertex, Contact, FeaturePair, Kept, Plane, Transform, Vec3, MAX_CLIP_POINTS,
    MOST_ROUNDS,
};

const ROOM: usize = 2 * MAX_CLIP_POINTS;

#[derive(Debug, Clone, Copy)]
#[repr(C)]
pub struct Places {
    numbers: [f32; 4 * ROOM],
    tags: [u8; 4 * ROOM],
}

impl Default for Places {
    /// Zeros.
    fn default() -> Places {
        Places {
            numbers: [0.0; 4 * ROOM],
            tags: [0; 4 * ROOM],
        }
    }
}

impl Places {
    /// These corners from the first on, and zeros behind them. Panics where they do not fit.
    pub fn new(corners: &[ClipVertex]) -> Places {
        let mut places = Places::default();
        places.put(0, corners);
        places
    }

    /// Every corner is this one.
    pub fn filled(corner: ClipVertex) -> Places {
        Places::new(&[corner; ROOM])
    }

    /// These corners stand from corner `from` on then. Panics where they do not fit.
    pub fn put(&mut self, from: usize, corners: &[ClipVertex]) {
        let numbers = self.numbers[4 * from..4 * (from + corners.len())].chunks_exact_mut(4);
        let tags = self.tags[4 * from..4 * (from + corners.len())].chunks_exact_mut(4);
        for ((numbers, tags), v) in numbers.zip(tags).zip(corners) {
            numbers.copy_from_slice(&[v.position.x, v.position.y, v.position.z, v.separation]);
            tags.copy_from_slice(&[v.pair.owner1, v.pair.index1, v.pair.owner2, v.pair.index2]);
        }
    }

    /// The corners that stand there. Panics where there is no room for so many.
    pub fn corners(&self, kept: Kept) -> Vec<ClipVertex> {
        let all = 4 * kept.from..4 * (kept.from + kept.count);
        let numbers = self.numbers[all.clone()].chunks_exact(4);
        let tags = self.tags[all].chunks_exact(4);
        let corner = |(numbers, tags): (&[f32], &[u8])| {
            let [x, y, z, separation] = numbers.try_into().expect("four numbers");
            let [owner1, index1, owner2, index2] = tags.try_into().expect("four bytes");
            ClipVertex {
                position: Vec3 { x, y, z },
                separation,
                pair: FeaturePair {
                    owner1,
                    index1,
                    owner2,
                    index2,
                },
            }
        };
        numbers.zip(tags).map(corner).collect()
    }

    /// The cut of the first n corners, which leaves so many; the first 64 of them stand in the second half then. Panics
    /// where n is 0 or more than 64.
    #[inline]
    pub fn clip_polygon(&mut self, n: usize, plane: Plane, edge: u8, reference: Plane) -> usize {
        assert!(0 < n && n <= MAX_CLIP_POINTS);
        unsafe {
            linked::probe_clip_polygon(
                self,
                0,
                n,
                plane,
                edge,
                reference,
                MAX_CLIP_POINTS,
            )
        }
    }

    /// A face in the first half; it has so many corners. Panics where the hull has no such face.
    pub fn build_polygon(
        &mut self,
        hull: Accepted,
        transform: Transform,
        face: usize,
        reference: Plane,
    ) -> usize {
        assert!(face < hull.size.faces);
        unsafe {
            linked::probe_build_polygon(
                hull.numbers.as_ptr(),
                hull.numbers.len(),
                hull.links.as_ptr(),
                hull.links.len(),
                hull.size,
                transform,
                face,
                reference,
                self,
            )
        }
    }
    /// The candidates, cut in these lists. Panics where A has no such face or B no such vertex.
    #[inline]
    pub fn candidates(
        &mut self,
        a: Accepted,
        b: Accepted,
        transform: Transform,
        face: usize,
        vertex: usize,
    ) -> Kept {
        assert!(face < a.size.faces && vertex < b.size.vertices);
        unsafe {
            linked::probe_candidates(
                a.numbers.as_ptr(),
                a.numbers.len(),
                a.links.as_ptr(),
                a.links.len(),
                a.size,
                b.numbers.as_ptr(),
                b.numbers.len(),
                b.links.as_ptr(),
                b.links.len(),
                b.size,
                transform,
                face,
                vertex,
                self,
            )
        }
    }

    /// The image of the candidate at corner p. Panics where there is no room for such a corner.
    pub fn image_at(&self, p: usize, normal: Vec3) -> ClipVertex {
        assert!(p < ROOM);
        unsafe {
            linked::probe_image_at(
                self,
                p,
                normal,
            )
        }
    }

    /// Panics where the candidates are more than 64 or begin past corner 64.
    pub fn least_separation(&self, kept: Kept) -> f32 {
        assert!(kept.from <= MAX_CLIP_POINTS && kept.count <= MAX_CLIP_POINTS);
        unsafe {
            linked::probe_least_separation(
                self,
                kept.from,
                kept.count,
            )
        }
    }

    /// Panics where the candidates are more than 64 or begin past corner 64.
    #[inline]
    pub fn reduce_manifold_points(&self, unit: usize, kept: Kept, normal: Vec3) -> Contact {
        assert!(kept.from <= MAX_CLIP_POINTS && kept.count <= MAX_CLIP_POINTS);
        unsafe {
            linked::probe_reduce_manifold_points(
                unit,
                self,
                kept.from,
                kept.count,
                normal,
            )
        }
    }

    /// So many reductions inside the library, and how many points they leave together. Panics where the candidates are more
    /// than 64 or begin past corner 64, or the rounds are too many.
    pub fn reduce_rounds(&self, unit: usize, kept: Kept, normal: Vec3, rounds: usize) -> usize {
        assert!(kept.from <= MAX_CLIP_POINTS && kept.count <= MAX_CLIP_POINTS);
        assert!(rounds <= MOST_ROUNDS);
        unsafe {
            linked::probe_reduce_rounds(
                unit,
                self,
                kept.from,
                kept.count,
                normal,
                rounds,
            )
        }
    }
}
