// Drops twelve logs into a cradle of three boards and lets them settle. Each step all pairs go through one call: `step` judges
// every hull once, and answers each pair with its points and its next cache.
//
// The simulator here is small, but it is one: logs fall, are pushed apart along the normals that the step tells, and rub on each
// other; they move and do not turn. host/c/stack.c is the same in C and prints the same, times aside.

use contact::{
    check_library, step, HullBuilder, Pair, Quat, SatCache, Stack, StepRoom, Transform, Vec3,
};
use std::error::Error;
use std::fmt::Write;
use std::process::ExitCode;
use std::time::{Duration, Instant};

const BOARDS: usize = 3;
const LOGS: usize = 12;
const STEP: f32 = 1.0 / 120.0;
const GRAVITY: f32 = 9.81;
const FRICTION: f32 = 0.25;
/// What may overlap is pushed apart at this share of its depth a step, down to this depth.
const PUSHED: f32 = 0.2;
const LEFT: f32 = 0.0005;
const ROUNDS: usize = 30;
/// At rest: no log is faster than this, for so many steps.
const SLOW: f32 = 0.002;
const STILL: usize = 12;

pub fn main() -> ExitCode {
    match settle() {
        Ok(story) => {
            print!("{story}");
            ExitCode::SUCCESS
        }
        Err(error) => {
            eprintln!("{error}");
            ExitCode::FAILURE
        }
    }
}

/// A board of the cradle, which does not move, or a log.
#[derive(Clone, Copy)]
struct Body {
    place: Vec3,
    turn: Quat,
    speed: Vec3,
    /// 1 of a log, 0 of a board.
    moves: f32,
}

/// A pair with points: its normal, turned into the world's frame, and how near the two are; what it was pushed and rubbed so far.
struct Touch {
    a: usize,
    b: usize,
    normal: Vec3,
    gap: f32,
    push: f32,
    rub: Vec3,
}

fn settle() -> Result<String, Box<dyn Error>> {
    check_library()?;
    let mut stack = Stack::new();
    let mut bodies = Vec::new();
    for (size, y, z) in [
        ([6.0, 1.6, 0.2], 0.0, -0.1),
        ([6.0, 0.1, 1.6], -0.7, 0.7),
        ([6.0, 0.1, 1.6], 0.7, 0.7),
    ] {
        let [length, width, thickness] = size;
        let board = HullBuilder::board(length, width, thickness).build()?;
        stack.add(&board.lend())?;
        bodies.push(Body {
            place: Vec3 { x: 0.0, y, z },
            turn: Quat::IDENTITY,
            speed: Vec3::ZERO,
            moves: 0.0,
        });
    }
    // By place, from below: logs that meet stand near each other in the stack's lists.
    for i in 0..LOGS {
        let (row, column) = (i / 4, i % 4);
        let radius = 0.13 + 0.01 * (i % 3) as f32;
        let log = HullBuilder::log(12, radius, radius, 4.0).build()?;
        stack.add(&log.lend())?;
        let (roll, yaw) = (0.07 * i as f32, 0.004 * (i % 5) as f32);
        let length = (roll * roll + yaw * yaw + 1.0).sqrt();
        bodies.push(Body {
            place: Vec3 {
                x: 0.05 * column as f32,
                y: -0.45 + 0.3 * column as f32 + if row % 2 == 1 { 0.05 } else { -0.02 },
                z: 0.6 + 0.45 * row as f32,
            },
            turn: Quat {
                v: Vec3 {
                    x: roll / length,
                    y: 0.0,
                    z: yaw / length,
                },
                s: 1.0 / length,
            },
            speed: Vec3::ZERO,
            moves: 1.0,
        });
    }
    let mut pairs = Vec::new();
    for b in BOARDS..bodies.len() {
        pairs.extend((0..b).map(|a| Pair {
            a: a as u32,
            b: b as u32,
        }));
    }
    let mut caches = vec![SatCache::EMPTY; pairs.len()];
    let mut room = StepRoom::new();
    let mut story = String::new();
    let (mut time, mut still) = (Duration::ZERO, 0);
    writeln!(
        story,
        "{LOGS} logs above a cradle of {BOARDS} boards: {} hulls, {} pairs",
        stack.len(),
        pairs.len()
    )?;

    for steps in 1..=1200 {
        let transforms: Vec<Transform> = pairs
            .iter()
            .map(|pair| seen_from(&bodies[pair.a as usize], &bodies[pair.b as usize]))
            .collect();
        let start = Instant::now();
        let stepped = step(&stack.lend(), &pairs, &transforms, &mut caches, &mut room)?;
        time += start.elapsed();

        let mut touches = Vec::new();
        for (place, answer) in stepped.answers().enumerate() {
            if let Some(refused) = stepped.refused(place) {
                return Err(refused.into());
            }
            let (a, b) = (answer.pair().a as usize, answer.pair().b as usize);
            let gap = answer.points().map(|point| point.separation).reduce(lower);
            if let Some(gap) = gap {
                touches.push(Touch {
                    a,
                    b,
                    normal: turned(bodies[a].turn, answer.normal()),
                    gap,
                    push: 0.0,
                    rub: Vec3::ZERO,
                });
            }
        }
        let hits = caches.iter().filter(|cache| cache.hit()).count();
        if steps == 1 || steps % 20 == 0 {
            let (points, contacts) = (stepped.points(), touches.len());
            let highest = bodies.iter().skip(BOARDS).map(|body| body.place.z);
            let highest = highest.fold(0.0, |a, b| if b > a { b } else { a });
            writeln!(
                story,
                "step {steps}: {points} points in {contacts} contacts, {hits} pairs served by the step before; the highest \
                 log at {highest:.3} m"
            )?;
        }
        move_on(&mut bodies, &mut touches);
        let fast = |body: &Body| dot(body.speed, body.speed) > SLOW * SLOW;
        still = if bodies.iter().any(fast) {
            0
        } else {
            still + 1
        };
        if still == STILL {
            for number in BOARDS..bodies.len() {
                let own = touches.iter().filter(|t| t.a == number || t.b == number);
                let others: Vec<String> = own.map(|t| name(t.a + t.b - number)).collect();
                let (place, others) = (vector(bodies[number].place), others.join(", "));
                writeln!(story, "  {} at {place} m touches {others}", name(number))?;
            }
            let deepest = touches.iter().map(|touch| touch.gap).fold(0.0, lower);
            writeln!(
                story,
                "time: {:.3} ms a step",
                1e3 * time.as_secs_f64() / steps as f64
            )?;
            writeln!(
                story,
                "step {steps}: the stack rests after {:.2} s, on {} points in {} contacts, none deeper than {:.1} mm",
                steps as f32 * STEP,
                stepped.points(),
                touches.len(),
                -1000.0 * deepest
            )?;
            return Ok(story);
        }
    }
    Err("the stack does not rest after ten seconds".into())
}

/// Falls, is pushed and rubbed by what it touches, and moves for the time of a step.
fn move_on(bodies: &mut [Body], touches: &mut [Touch]) {
    for body in bodies.iter_mut() {
        body.speed.z -= body.moves * (GRAVITY * STEP);
    }
    for _ in 0..ROUNDS {
        for touch in touches.iter_mut() {
            let (a, b) = (bodies[touch.a], bodies[touch.b]);
            let shares = a.moves + b.moves;
            // As fast as they may come nearer, or should part.
            let wanted = if touch.gap > 0.0 {
                -touch.gap / STEP
            } else if touch.gap < -LEFT {
                -PUSHED * (touch.gap + LEFT) / STEP
            } else {
                0.0
            };
            let apart = sub(b.speed, a.speed);
            let parting = dot(touch.normal, apart);
            let push = touch.push + (wanted - parting) / shares;
            let push = if push > 0.0 { push } else { 0.0 };
            let along = sub(apart, scaled(touch.normal, parting));
            let mut rub = sub(touch.rub, scaled(along, 1.0 / shares));
            let (length, most) = (dot(rub, rub).sqrt(), FRICTION * push);
            if length > most {
                rub = scaled(rub, most / length);
            }
            let more = add(scaled(touch.normal, push - touch.push), sub(rub, touch.rub));
            touch.push = push;
            touch.rub = rub;
            bodies[touch.a].speed = sub(a.speed, scaled(more, a.moves));
            bodies[touch.b].speed = add(b.speed, scaled(more, b.moves));
        }
    }
    for body in bodies.iter_mut() {
        body.place = add(body.place, scaled(body.speed, STEP));
    }
}

/// B's place and turn in A's frame.
fn seen_from(a: &Body, b: &Body) -> Transform {
    let back = Quat {
        v: scaled(a.turn.v, -1.0),
        s: a.turn.s,
    };
    let (q, r) = (back, b.turn);
    let v = add(add(cross(q.v, r.v), scaled(r.v, q.s)), scaled(q.v, r.s));
    Transform {
        p: turned(back, sub(b.place, a.place)),
        q: Quat {
            v,
            s: q.s * r.s - dot(q.v, r.v),
        },
    }
}

fn turned(q: Quat, v: Vec3) -> Vec3 {
    let across = add(cross(q.v, v), scaled(v, q.s));
    add(v, scaled(cross(q.v, across), 2.0))
}

fn add(a: Vec3, b: Vec3) -> Vec3 {
    Vec3 {
        x: a.x + b.x,
        y: a.y + b.y,
        z: a.z + b.z,
    }
}

fn sub(a: Vec3, b: Vec3) -> Vec3 {
    Vec3 {
        x: a.x - b.x,
        y: a.y - b.y,
        z: a.z - b.z,
    }
}

fn scaled(v: Vec3, by: f32) -> Vec3 {
    Vec3 {
        x: v.x * by,
        y: v.y * by,
        z: v.z * by,
    }
}

fn dot(a: Vec3, b: Vec3) -> f32 {
    a.x * b.x + a.y * b.y + a.z * b.z
}

fn cross(a: Vec3, b: Vec3) -> Vec3 {
    Vec3 {
        x: a.y * b.z - a.z * b.y,
        y: a.z * b.x - a.x * b.z,
        z: a.x * b.y - a.y * b.x,
    }
}

fn lower(a: f32, b: f32) -> f32 {
    if b < a {
        b
    } else {
        a
    }
}

fn name(body: usize) -> String {
    match body {
        0 => "the floor".into(),
        1 => "the left board".into(),
        2 => "the right board".into(),
        _ => format!("log {}", body - BOARDS),
    }
}

/// Three decimals, and no zero below zero.
fn vector(v: Vec3) -> String {
    let [x, y, z] = [v.x, v.y, v.z].map(|c| if c.abs() < 0.0005 { 0.0 } else { c });
    format!("({x:.3}, {y:.3}, {z:.3})")
}
