// Drags a log over three that lie side by side, as an editor of stacks would, and says how far it can be let down and which log is
// then in the way. It takes a yes or a no for each place and no points.
//
// A log is a prism of 12 sides along x, in metres. The dragged one stays parallel to the others; at each place it is let down by a
// millimetre at a time while the question says that it is apart from all three.

use contact::{apart, check_library, HullBuilder, Quat, Refused, Transform, Vec3};
use std::error::Error;
use std::fmt::Write;
use std::process::ExitCode;

pub fn main() -> ExitCode {
    match drag() {
        Ok(story) => {
            print!("{story}");
            ExitCode::SUCCESS
        }
        Err(error) => {
            eprintln!("{error}");
            ExitCode::FAILURE
        }
    }
}

fn drag() -> Result<String, Box<dyn Error>> {
    check_library()?;
    const RADIUS: f32 = 0.15;
    const BESIDE: f32 = 0.35;
    let log = HullBuilder::log(12, RADIUS, RADIUS, 4.0).build()?;
    let (lying, dragged) = (log.lend(), log.lend());
    let mut story = String::new();
    let (mut questions, mut yes) = (0, 0);

    for place in -4..=4 {
        let y = 0.5 * BESIDE * place as f32;
        let mut in_the_way = None;
        let mut millimetres = 500;
        while millimetres > 0 && in_the_way.is_none() {
            for number in 0..3 {
                let there = BESIDE * (number - 1) as f32;
                let dragged_in_lying = Transform {
                    p: Vec3 {
                        x: 0.0,
                        y: y - there,
                        z: 0.001 * (millimetres - 1) as f32,
                    },
                    q: Quat::IDENTITY,
                };
                questions += 1;
                match apart(&lying, &dragged, dragged_in_lying) {
                    Ok(true) => yes += 1,
                    Ok(false) => {
                        in_the_way = Some(number);
                        break;
                    }
                    Err(refusal) => return Err(Refused::new(refusal, &lying, &dragged).into()),
                }
            }
            millimetres -= i32::from(in_the_way.is_none());
        }
        match in_the_way {
            Some(number) => writeln!(
                story,
                "at y = {y:.3} m: free down to {millimetres} mm, then log {number} is in the way"
            )?,
            None => writeln!(story, "at y = {y:.3} m: free down to the ground")?,
        }
    }
    writeln!(story, "{questions} questions, {yes} of them a yes")?;
    Ok(story)
}
