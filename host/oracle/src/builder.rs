//! Builds the text's hull record from the project's own layout of numbers and links.

use crate::hull::{HullData, HullFace, HullHalfEdge, HullVertex};
use crate::math_functions::{Aabb, Plane, Vec3};

/// The hull of these counts.
///
/// `numbers`: box low x, y, z; box high x, y, z; the x list, the y list, the z list, each padded to a multiple of four;
/// then for each face its normal x, y, z and its offset. `links`: the stored edge of each vertex; next, twin, origin and
/// face of each half-edge; the stored edge of each face. The padding is taken as it is. Panics where either length does
/// not fit the counts.
pub fn hull(
    numbers: &[f32],
    links: &[u8],
    vertices: usize,
    half_edges: usize,
    faces: usize,
) -> HullData {
    let lanes = vertices.next_multiple_of(4);
    assert_eq!(numbers.len(), 6 + 3 * lanes + 4 * faces);
    assert_eq!(links.len(), vertices + 4 * half_edges + faces);

    let (bounds, numbers) = numbers.split_at(6);
    let (coordinates, plane_numbers) = numbers.split_at(3 * lanes);
    let planes: Vec<Plane> = plane_numbers
        .chunks_exact(4)
        .map(|n| Plane {
            normal: vector(n),
            offset: n[3],
        })
        .collect();

    let (vertex_links, links) = links.split_at(vertices);
    let (edge_links, face_links) = links.split_at(4 * half_edges);

    HullData {
        aabb: Aabb {
            lower_bound: vector(&bounds[..3]),
            upper_bound: vector(&bounds[3..]),
        },
        vertex_count: vertices as i32,
        edge_count: half_edges as i32,
        face_count: faces as i32,
        vertices: vertex_links
            .iter()
            .map(|&edge| HullVertex { edge })
            .collect(),
        points: (0..vertices)
            .map(|i| Vec3 {
                x: coordinates[i],
                y: coordinates[lanes + i],
                z: coordinates[2 * lanes + i],
            })
            .collect(),
        edges: edge_links
            .chunks_exact(4)
            .map(|e| HullHalfEdge {
                next: e[0],
                twin: e[1],
                origin: e[2],
                face: e[3],
            })
            .collect(),
        faces: face_links.iter().map(|&edge| HullFace { edge }).collect(),
        soa_vertices: coordinates.to_vec(),
        soa_normals: normal_lists(&planes),
        planes,
        ..HullData::default()
    }
}

fn vector(n: &[f32]) -> Vec3 {
    Vec3 {
        x: n[0],
        y: n[1],
        z: n[2],
    }
}

/// The x list, y list and z list of the planes' normals, each padded with zeros to a multiple of four.
fn normal_lists(planes: &[Plane]) -> Vec<f32> {
    let lanes = planes.len().next_multiple_of(4);
    let mut lists = vec![0.0; 3 * lanes];
    for (i, plane) in planes.iter().enumerate() {
        lists[i] = plane.normal.x;
        lists[lanes + i] = plane.normal.y;
        lists[2 * lanes + i] = plane.normal.z;
    }
    lists
}
