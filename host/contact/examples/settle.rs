// Lets one log down on another, step by step, and prints the contact in words.
//
// A log is a prism of 12 sides along x. Log A lies still; log B, turned by 30 degrees, falls on it from 5 cm above. The
// simulator here is as small as can be: B moves straight down, and each step it falls as far as the contact leaves room.

use contact::{check_library, collide, HullBuilder, Quat, Refused, SatCache, Transform, Vec3};
use std::error::Error;
use std::fmt::Write;
use std::process::ExitCode;

pub fn main() -> ExitCode {
    match settle() {
        Ok(story) => {
            print!("{story}");
            ExitCode::SUCCESS
        }
        Err(error) => {
            eprintln!("{error}");
            ExitCode::FAILURE
        }
    }
}

fn settle() -> Result<String, Box<dyn Error>> {
    check_library()?;
    const RADIUS: f32 = 0.15;
    const GRAVITY: f32 = 9.81;
    const STEP: f32 = 1.0 / 240.0;
    let log = HullBuilder::log(12, RADIUS, RADIUS, 4.0).build()?;
    let (a, b) = (log.lend(), log.lend());
    let half_turn = 15f32.to_radians();
    let mut b_in_a = Transform {
        p: Vec3 {
            x: 0.0,
            y: 0.0,
            z: 2.0 * RADIUS * half_turn.cos() + 0.05,
        },
        q: Quat {
            v: Vec3 {
                x: 0.0,
                y: 0.0,
                z: half_turn.sin(),
            },
            s: half_turn.cos(),
        },
    };
    let mut cache = SatCache::EMPTY;
    let mut speed = 0.0;
    let mut touched = false;
    let mut story = String::new();

    for step in 1..=240 {
        let outcome = collide(&a, &b, b_in_a, &mut cache);
        if let Some(refused) = Refused::of(&outcome, &a, &b) {
            return Err(refused.into());
        }
        let points = outcome.points();

        speed += GRAVITY * STEP;
        let room = points.iter().map(|point| point.separation.max(0.0));
        let fall = room.fold(speed * STEP, f32::min);
        if step == 1 || (!points.is_empty() && !touched) {
            let (apart, axis) = (gap(cache.separation()), cache.kind());
            writeln!(
                story,
                "step {step}: {apart} along {axis}, {} points",
                points.len()
            )?;
            touched = !points.is_empty();
        }
        if fall == 0.0 {
            let seconds = (step - 1) as f32 * STEP;
            writeln!(
                story,
                "step {step}: log B rests on log A after {seconds:.3} s"
            )?;
            let found = if cache.hit() {
                "served by the step before"
            } else {
                "found anew"
            };
            let (normal, axis) = (vector(outcome.contact.normal), cache.kind());
            writeln!(
                story,
                "the normal is {normal}, from A to B; the axis is {axis}, {found}"
            )?;
            for (i, point) in points.iter().enumerate() {
                let (position, apart, pair) =
                    (vector(point.position), gap(point.separation), point.pair);
                let owner = |number: u8| if number == 0 { "A" } else { "B" };
                writeln!(
                    story,
                    "  point {i} at {position} m, {apart}: half-edge {} of {}, half-edge {} of {}, candidate {}",
                    pair.index1,
                    owner(pair.owner1),
                    pair.index2,
                    owner(pair.owner2),
                    point.place,
                )?;
            }
            return Ok(story);
        }
        speed = fall / STEP;
        b_in_a.p.z -= fall;
    }
    Err("log B still falls after a second".into())
}

/// A separation in words.
fn gap(separation: f32) -> String {
    let millimetres = 1000.0 * separation;
    if millimetres.abs() < 0.05 {
        "touching".into()
    } else if millimetres > 0.0 {
        format!("{millimetres:.1} mm apart")
    } else {
        format!("{:.1} mm deep", -millimetres)
    }
}

/// Three decimals, and no zero below zero.
fn vector(v: Vec3) -> String {
    let [x, y, z] = [v.x, v.y, v.z].map(|c| if c.abs() < 0.0005 { 0.0 } else { c });
    format!("({x:.3}, {y:.3}, {z:.3})")
}
