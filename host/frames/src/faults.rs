//! Faults that a program could have, each with what it then answers to a line. The comparison is tried on them, so that
//! it is seen to tell each.

use crate::codec::{
    self, Asked, Fault, A_POINT, CACHE, CALL, CAPACITY, COUNT, HIT, NEXT_CACHE, NORMAL, PLACES,
    POINTS, RETIRED, ROOT, STATUS, TRANSFORM, TYPE,
};
use crate::{hex, wanted, LONGEST_LINE};
use cases::calls::Given;
use records::SatCache;

#[cfg(rust_text)]
pub mod apart;
mod shells;
pub mod steps;
#[cfg(rust_text)]
mod units;

/// What is answered to a line with its end, where it has one; none where nothing is printed.
pub type Answers = fn(&[u8]) -> Option<Vec<u8>>;

/// The right answer.
pub fn right(line: &[u8]) -> Option<Vec<u8>> {
    wanted::to_line(without_end(line))
}

/// The right answer with the work of a call done once, as the plain program is timed.
pub fn right_once(line: &[u8]) -> Option<Vec<u8>> {
    wanted::to_line_once(without_end(line))
}

fn without_end(line: &[u8]) -> &[u8] {
    line.strip_suffix(b"\n").unwrap_or(line)
}

/// The right answer to a call, changed.
fn of_call(line: &[u8], change: impl FnOnce(&mut [u8])) -> Option<Vec<u8>> {
    let mut answer = right(line)?;
    if answer[0] == CALL + 0x80 {
        change(&mut answer);
    }
    Some(answer)
}

/// The right answer to a call that was accepted and did some work, changed by what it was given.
fn of_given(line: &[u8], change: impl FnOnce(&mut [u8], &Given)) -> Option<Vec<u8>> {
    let asked = hex::read(without_end(line)).map(|frame| codec::decode(&frame));
    of_call(line, |answer| match asked {
        Some(Ok(Asked::Call(given))) if answer[STATUS] == 0 && given.capacity >= 4 => {
            change(answer, &given)
        }
        _ => {}
    })
}

/// The same, changed by the type that it was given.
fn of_work(line: &[u8], change: impl FnOnce(&mut [u8], u8)) -> Option<Vec<u8>> {
    of_given(line, |answer, given| change(answer, given.cache.kind))
}

/// The right answer to a call whose contact has points, its four places changed by how many there are and by the type of the
/// next cache.
fn of_places(line: &[u8], change: impl FnOnce(&mut [u8], usize, u8)) -> Option<Vec<u8>> {
    of_call(line, |answer| {
        let (count, next_type) = (answer[COUNT].into(), answer[NEXT_CACHE + TYPE]);
        if count > 0 {
            change(&mut answer[PLACES..RETIRED], count, next_type);
        }
    })
}

/// Whether the next cache has a retired type, which it has only where it is the cache that was given.
fn keeps_retired_type(answer: &[u8]) -> bool {
    SatCache::RETIRED_TYPES.contains(&answer[NEXT_CACHE + TYPE])
}

/// The right answer to another line.
fn to_changed(line: &[u8], change: impl FnOnce(&mut Vec<u8>)) -> Option<Vec<u8>> {
    let mut line = without_end(line).to_vec();
    change(&mut line);
    right(&line)
}

/// The right answer to a call's frame, changed.
fn to_changed_call(line: &[u8], change: impl FnOnce(&mut [u8])) -> Option<Vec<u8>> {
    to_changed(line, |line| {
        let Some(mut frame) = hex::read(line) else {
            return;
        };
        if frame.first() == Some(&CALL) && frame.len() > codec::HULL_A {
            change(&mut frame);
            *line = hex::written(&frame);
        }
    })
}

fn point(number: usize) -> std::ops::Range<usize> {
    let from = POINTS + A_POINT * number;
    from..from + A_POINT
}

/// Those about H9 and about units stand apart.
const FAULTS: [(&str, Answers); 42] = [
    ("low byte first in a root", |line| {
        let mut answer = right(line)?;
        if answer[0] == ROOT + 0x80 {
            answer[1..].reverse();
        }
        Some(answer)
    }),
    ("low byte first in a normal", |line| {
        of_call(line, |answer| answer[NORMAL..NORMAL + 4].reverse())
    }),
    ("a NaN with other bits", |line| {
        let mut answer = right(line)?;
        if answer[..] == [ROOT + 0x80, 0x7f, 0xc0, 0, 0] {
            answer[1] = 0xff;
        }
        Some(answer)
    }),
    ("some roots one float off", |line| {
        let mut answer = right(line)?;
        if answer[0] == ROOT + 0x80 && answer[4] & 7 == 6 {
            answer[4] += 1;
        }
        Some(answer)
    }),
    ("the status one higher", |line| {
        of_call(line, |answer| {
            answer[STATUS] += u8::from(answer[STATUS] > 0)
        })
    }),
    ("refusals 1 and 2 in the other order", |line| {
        of_call(line, |answer| {
            if (1..=2).contains(&answer[STATUS]) {
                answer[STATUS] = 3 - answer[STATUS];
            }
        })
    }),
    ("a point doubled", |line| {
        of_call(line, |answer| {
            if answer[COUNT] > 1 {
                answer.copy_within(point(0), point(1).start);
            }
        })
    }),
    ("two points exchanged", |line| {
        of_call(line, |answer| {
            if answer[COUNT] == 4 {
                let last = answer[point(3)].to_vec();
                answer.copy_within(point(2), point(3).start);
                answer[point(2)].copy_from_slice(&last);
            }
        })
    }),
    ("a count without its last point", |line| {
        of_call(line, |answer| {
            if let Some(last) = usize::from(answer[COUNT]).checked_sub(1) {
                answer[point(last)].fill(0);
            }
        })
    }),
    ("a point above the count not cleared", |line| {
        of_call(line, |answer| {
            if answer[COUNT] < 4 {
                answer[point(3).end - 1] = 1;
            }
        })
    }),
    ("a normal without points", |line| {
        of_call(line, |answer| {
            if answer[STATUS] == 0 && answer[COUNT] == 0 {
                answer[NORMAL] = 0x3f;
            }
        })
    }),
    ("the hit not set", |line| {
        of_call(line, |answer| {
            if answer[STATUS] == 0 {
                answer[NEXT_CACHE + HIT] = 0;
            }
        })
    }),
    ("the hit cleared on a refusal", |line| {
        of_call(line, |answer| {
            if answer[STATUS] != 0 {
                answer[NEXT_CACHE + HIT] = 0;
            }
        })
    }),
    ("a kept NaN made plain", |line| {
        of_call(line, |answer| {
            let bits = u32::from_be_bytes(answer[NEXT_CACHE..][..4].try_into().expect("four"));
            if f32::from_bits(bits).is_nan() {
                answer[NEXT_CACHE..][..4].copy_from_slice(&[0x7f, 0xc0, 0, 0]);
            }
        })
    }),
    ("the mark never set", |line| {
        of_call(line, |answer| answer[RETIRED] = 0)
    }),
    ("the mark on a refusal", |line| {
        of_call(line, |answer| {
            let refused = answer[STATUS] != 0;
            answer[RETIRED] |= u8::from(refused && keeps_retired_type(answer));
        })
    }),
    ("the mark with a capacity below 4", |line| {
        of_call(line, |answer| {
            let accepted = answer[STATUS] == 0;
            answer[RETIRED] |= u8::from(accepted && keeps_retired_type(answer));
        })
    }),
    ("type 5 marked", |line| {
        of_work(line, |answer, kind| answer[RETIRED] |= u8::from(kind == 5))
    }),
    ("type 9 marked", |line| {
        of_work(line, |answer, kind| answer[RETIRED] |= u8::from(kind == 9))
    }),
    ("type 8 not marked", |line| {
        of_work(line, |answer, kind| answer[RETIRED] &= u8::from(kind != 8))
    }),
    ("a retired type kept in the next cache", |line| {
        of_work(line, |answer, kind| {
            if answer[RETIRED] == 1 {
                answer[NEXT_CACHE + TYPE] = kind;
            }
        })
    }),
    (
        "the second place as the list stands after the first pick",
        |line| {
            of_given(line, |answer, given| {
                // The first pick's place is taken by the last candidate.
                if answer[COUNT] > 1 {
                    let count = wanted::candidates(given, answer);
                    if count > 4 && usize::from(answer[PLACES + 1]) == count - 1 {
                        answer[PLACES + 1] = answer[PLACES];
                    }
                }
            })
        },
    ),
    ("places always 0, 1, 2, ..", |line| {
        of_places(line, |places, count, _| {
            for (to, place) in places[..count].iter_mut().zip(0..) {
                *to = place;
            }
        })
    }),
    ("places of a face of B not carried", |line| {
        of_places(line, |places, count, next_type| {
            if next_type == 3 {
                places[..count].fill(0);
            }
        })
    }),
    ("an edge point at place 1", |line| {
        of_places(line, |places, _, next_type| {
            if next_type == 4 {
                places[0] = 1;
            }
        })
    }),
    ("an unused place 0", |line| {
        of_call(line, |answer| {
            let unused = PLACES + usize::from(answer[COUNT]);
            answer[unused..RETIRED].fill(0);
        })
    }),
    ("the places behind the mark", |line| {
        of_call(line, |answer| answer[PLACES..].rotate_right(1))
    }),
    ("a place doubled", |line| {
        of_places(line, |places, count, _| {
            if count > 1 {
                places[1] = places[0];
            }
        })
    }),
    ("the capacity without a sign", |line| {
        to_changed_call(line, |frame| frame[CAPACITY] &= 0x7f)
    }),
    ("the capacity's low byte alone", |line| {
        to_changed_call(line, |frame| frame[CAPACITY..CAPACITY + 3].fill(0))
    }),
    ("the indices of a cache exchanged", |line| {
        to_changed_call(line, |frame| frame.swap(CACHE + 5, CACHE + 6))
    }),
    ("the scalar of a quaternion first", |line| {
        to_changed_call(line, |frame| {
            frame[TRANSFORM + 12..TRANSFORM + 28].rotate_left(4)
        })
    }),
    ("upper case read", |line| {
        to_changed(line, |line| line.make_ascii_lowercase())
    }),
    ("a digit too many passed over", |line| {
        to_changed(line, |line| line.truncate(line.len() / 2 * 2))
    }),
    ("a carriage return passed over", |line| {
        to_changed(line, |line| {
            if line.last() == Some(&b'\r') {
                line.pop();
            }
        })
    }),
    ("a line of 20,001 characters read", |line| {
        let (frame, most) = (without_end(line), LONGEST_LINE + 1);
        match hex::read(frame) {
            None if frame.len() == most => Some(Fault::NotHex.answer()),
            _ => right(line),
        }
    }),
    ("a line of 20,000 characters too long", |line| {
        if without_end(line).len() == LONGEST_LINE {
            return Some(Fault::TooLong.answer());
        }
        right(line)
    }),
    ("an empty line passed over", |line| {
        if without_end(line).is_empty() {
            return None;
        }
        right(line)
    }),
    ("the last line without its end lost", |line| {
        line.ends_with(b"\n").then(|| right(line))?
    }),
    ("the length before the kind", |line| {
        let answer = right(line)?;
        if answer == Fault::NoKind.answer() && without_end(line).len() > 2 {
            return Some(Fault::Length.answer());
        }
        Some(answer)
    }),
    ("what follows a root passed over", |line| {
        to_changed(line, |line| {
            if line.starts_with(b"10") {
                line.truncate(10);
            }
        })
    }),
    ("any owner flipped", |line| {
        let frame = without_end(line);
        match right(line) {
            Some(answer) if answer == Fault::Owner.answer() => {
                let bytes = hex::read(frame)?;
                let [owner1, owner2] = [bytes[1], bytes[3]].map(|owner| 1u8.wrapping_sub(owner));
                Some(vec![codec::FLIP + 0x80, owner2, bytes[4], owner1, bytes[2]])
            }
            answer => answer,
        }
    }),
];

/// Every fault: its name, and the answers with it.
pub fn all() -> impl Iterator<Item = (&'static str, Answers)> {
    let all = FAULTS.into_iter().chain(shells::FAULTS);
    #[cfg(rust_text)]
    let all = all.chain(units::FAULTS);
    all
}

/// The answers with the fault of this name.
pub fn named(name: &str) -> Option<Answers> {
    all()
        .find(|&(own, _)| own == name)
        .map(|(_, answers)| answers)
}
