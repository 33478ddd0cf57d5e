//! Faults that a step could have. The comparison of steps is tried on them.

use crate::steps::wanted::{self, record};
use crate::steps::{Lent, Lists};
use records::{
    Contact, Outcome, Step, CACHE_WORDS, COUNT_BYTE, HULL_WORDS, PAIR_BYTES, PAIR_FLOATS,
    PLACE_BYTES, RETIRED_BYTE, STATUS_BYTE,
};

/// What a step returns and writes.
pub type Steps = fn(&mut Lent) -> Step;

/// As it should be.
pub fn right(lent: &mut Lent) -> Step {
    right_of(lent, |_| {})
}

/// As it should be of lists that are changed: what is written is written to the given ones, as far as they reach.
fn right_of(lent: &mut Lent, change: impl FnOnce(&mut Lists)) -> Step {
    let mut given = lent.owned();
    change(&mut given);
    let written = wanted::of(&given);
    if written.step.status == 0 {
        put(lent.judged, &written.judged);
        put(lent.caches, &written.caches);
        put(lent.floats, &written.floats);
        put(lent.bytes, &written.bytes);
    }
    written.step
}

fn put<T: Copy>(to: &mut [T], from: &[T]) {
    let both = to.len().min(from.len());
    to[..both].copy_from_slice(&from[..both]);
}

/// As it should be, then changed where there was room: the lists, what is returned, and what the lists held before.
fn then(lent: &mut Lent, change: impl FnOnce(&mut Lent, &mut Step, &Lists)) -> Step {
    let before = lent.owned();
    let mut step = right(lent);
    if step.status == 0 {
        change(lent, &mut step, &before);
    }
    step
}

/// The same for each pair: its number, its bytes, its floats.
fn each_pair(lent: &mut Lent, change: impl Fn(usize, &mut [u8], &mut [f32], &Lists)) -> Step {
    then(lent, |lent, _, before| {
        let (_, pairs) = before.counts();
        let bytes = lent.bytes.chunks_exact_mut(PAIR_BYTES);
        let floats = lent.floats.chunks_exact_mut(PAIR_FLOATS);
        for (pair, (bytes, floats)) in bytes.zip(floats).take(pairs).enumerate() {
            change(pair, bytes, floats, before);
        }
    })
}

/// A hull that is judged so, by lists in which it breaks H1; good ones stay.
fn judged_as(lent: &mut Lent, rule: impl Fn(&Lists, usize) -> u8) -> Step {
    let before = lent.owned();
    let (hulls, _) = before.counts();
    let rules: Vec<u8> = (0..hulls).map(|hull| rule(&before, hull)).collect();
    let step = right_of(lent, |lists| {
        for (hull, rule) in rules.iter().enumerate() {
            if *rule != 0 {
                lists.hulls[HULL_WORDS * hull + 2] = 0;
            }
        }
    });
    if step.status == 0 {
        for (hull, rule) in rules.into_iter().enumerate() {
            if rule != 0 {
                lent.judged[hull] = rule;
            }
        }
    }
    step
}

fn own_rule(lists: &Lists, hull: usize) -> u8 {
    wanted::hull(lists, hull).map_or(1, cases::shapes::broken_rule)
}

pub const FAULTS: [(&str, Steps); 29] = [
    ("what stood in judged believed", |lent| {
        judged_as(lent, |lists, hull| match lists.judged.get(hull) {
            Some(&rule @ 1..=9) => rule,
            _ => own_rule(lists, hull),
        })
    }),
    ("a good hull not noted", |lent| {
        then(lent, |lent, _, before| {
            let (hulls, _) = before.counts();
            for hull in 0..hulls {
                if lent.judged[hull] == 0 {
                    lent.judged[hull] = before.judged[hull];
                }
            }
        })
    }),
    ("a hull judged by another's numbers", |lent| {
        judged_as(lent, |lists, hull| {
            let mut shifted = lists.clone();
            let (hulls, _) = lists.counts();
            shifted.hulls[HULL_WORDS * hull] = record(lists, (hull + 1) % hulls).numbers;
            own_rule(&shifted, hull)
        })
    }),
    ("a hull judged by another's links", |lent| {
        judged_as(lent, |lists, hull| {
            let mut shifted = lists.clone();
            let (hulls, _) = lists.counts();
            shifted.hulls[HULL_WORDS * hull + 1] = record(lists, (hull + 1) % hulls).links;
            own_rule(&shifted, hull)
        })
    }),
    ("every broken hull noted as H1", |lent| {
        then(lent, |lent, _, before| {
            let (hulls, _) = before.counts();
            for rule in &mut lent.judged[..hulls] {
                *rule = (*rule).min(1);
            }
        })
    }),
    (
        "lists that end where the last one does taken for outside",
        |lent| {
            judged_as(lent, |lists, hull| {
                let record = record(lists, hull);
                let ends = |from: u32, count: Option<usize>, all: usize| {
                    count.is_some_and(|count| from as usize + count == all)
                };
                let size = record.size();
                let at_end = ends(record.numbers, size.numbers(), lists.numbers.len())
                    || ends(record.links, size.links(), lists.links.len());
                if at_end {
                    1
                } else {
                    own_rule(lists, hull)
                }
            })
        },
    ),
    ("a neighbour's cache read", |lent| {
        let own = lent.caches.to_vec();
        let (_, pairs) = lent.owned().counts();
        let step = right_of(lent, |lists| {
            let end = (CACHE_WORDS * pairs).min(lists.caches.len());
            let by = CACHE_WORDS.min(end);
            lists.caches[..end].rotate_left(by);
        });
        // A refused pair's cache stays its own.
        for pair in 0..if step.status == 0 { pairs } else { 0 } {
            if lent.bytes[PAIR_BYTES * pair] != 0 {
                let place = CACHE_WORDS * pair;
                lent.caches[place..place + 2].copy_from_slice(&own[place..place + 2]);
            }
        }
        step
    }),
    ("the next cache at a neighbour's place", |lent| {
        then(lent, |lent, _, before| {
            let (_, pairs) = before.counts();
            if pairs > 1 {
                lent.caches[..CACHE_WORDS * pairs].rotate_right(CACHE_WORDS);
            }
        })
    }),
    ("the cache's bytes in the other order", |lent| {
        then(lent, |lent, _, before| {
            let (_, pairs) = before.counts();
            for words in lent.caches.chunks_exact_mut(CACHE_WORDS).take(pairs) {
                words[1] = words[1].swap_bytes();
            }
        })
    }),
    ("a refused pair's cache cleared", |lent| {
        then(lent, |lent, _, before| {
            let (_, pairs) = before.counts();
            let caches = lent.caches.chunks_exact_mut(CACHE_WORDS);
            let bytes = lent.bytes.chunks_exact(PAIR_BYTES);
            for (cache, bytes) in caches.zip(bytes).take(pairs) {
                if bytes[STATUS_BYTE] != 0 {
                    cache.fill(0);
                }
            }
        })
    }),
    ("the hit of a refused pair cleared", |lent| {
        then(lent, |lent, _, before| {
            let (_, pairs) = before.counts();
            let caches = lent.caches.chunks_exact_mut(CACHE_WORDS);
            let bytes = lent.bytes.chunks_exact(PAIR_BYTES);
            for (cache, bytes) in caches.zip(bytes).take(pairs) {
                if bytes[STATUS_BYTE] != 0 {
                    cache[1] &= 0x00ff_ffff;
                }
            }
        })
    }),
    ("points of refused pairs counted", |lent| {
        then(lent, |lent, step, before| {
            let (_, pairs) = before.counts();
            let stood = before.bytes.chunks_exact(PAIR_BYTES);
            for (now, stood) in lent.bytes.chunks_exact(PAIR_BYTES).zip(stood).take(pairs) {
                if now[STATUS_BYTE] != 0 {
                    step.points += usize::from(stood[COUNT_BYTE]);
                }
            }
        })
    }),
    ("contacts counted, not points", |lent| {
        then(lent, |lent, step, before| {
            let (_, pairs) = before.counts();
            let bytes = lent.bytes.chunks_exact(PAIR_BYTES).take(pairs);
            step.points = bytes.filter(|bytes| bytes[COUNT_BYTE] > 0).count();
        })
    }),
    (
        "a refused pair keeps the contact that stood there",
        |lent| {
            each_pair(lent, |pair, bytes, floats, before| {
                if bytes[STATUS_BYTE] != 0 {
                    floats.copy_from_slice(&before.floats[PAIR_FLOATS * pair..][..PAIR_FLOATS]);
                }
            })
        },
    ),
    ("a refused pair keeps the bytes that stood there", |lent| {
        each_pair(lent, |pair, bytes, _, before| {
            if bytes[STATUS_BYTE] != 0 {
                let stood = &before.bytes[PAIR_BYTES * pair..][..PAIR_BYTES];
                bytes[1..].copy_from_slice(&stood[1..]);
            }
        })
    }),
    ("unused points keep what stood there", |lent| {
        each_pair(lent, |pair, bytes, floats, before| {
            let unused = 3 + 4 * usize::from(bytes[COUNT_BYTE]);
            let stood = &before.floats[PAIR_FLOATS * pair..][..PAIR_FLOATS];
            floats[unused..].copy_from_slice(&stood[unused..]);
        })
    }),
    ("the byte before the tags not cleared", |lent| {
        each_pair(lent, |pair, bytes, _, before| {
            bytes[3] = before.bytes[PAIR_BYTES * pair + 3];
        })
    }),
    ("an unused place 0", |lent| {
        each_pair(lent, |_, bytes, _, _| {
            let count = usize::from(bytes[COUNT_BYTE]);
            bytes[PLACE_BYTES + count..].fill(0);
        })
    }),
    ("the mark never set", |lent| {
        each_pair(lent, |_, bytes, _, _| bytes[RETIRED_BYTE] = 0)
    }),
    ("separations before positions", |lent| {
        each_pair(lent, |_, _, floats, _| {
            for point in floats[3..].chunks_exact_mut(4) {
                point.rotate_right(1);
            }
        })
    }),
    ("the normal behind the points", |lent| {
        each_pair(lent, |_, _, floats, _| floats.rotate_left(3))
    }),
    ("refusal 1 where B's number is none", |lent| {
        each_pair(lent, |pair, bytes, _, before| {
            let (hulls, _) = before.counts();
            if bytes[STATUS_BYTE] == 2 && before.pairs[2 * pair + 1] as usize >= hulls {
                bytes[STATUS_BYTE] = 1;
            }
        })
    }),
    ("a hull number that is none taken for the last", |lent| {
        right_of(lent, |lists| {
            let (hulls, _) = lists.counts();
            if let Some(last) = hulls.checked_sub(1) {
                for number in &mut lists.pairs {
                    *number = (*number).min(last as u32);
                }
            }
        })
    }),
    ("A and B exchanged", |lent| {
        right_of(lent, |lists| {
            for pair in lists.pairs.chunks_exact_mut(2) {
                pair.swap(0, 1);
            }
        })
    }),
    ("the scalar of a quaternion first", |lent| {
        right_of(lent, |lists| {
            for transform in lists.transforms.chunks_exact_mut(7) {
                transform[3..].rotate_left(1);
            }
        })
    }),
    ("half a pair answered", |lent| {
        then(lent, |lent, _, before| {
            let (_, pairs) = before.counts();
            let place = PAIR_BYTES * pairs;
            if before.pairs.len() % 2 == 1 && lent.bytes.len() > place {
                lent.bytes[place] = 1;
            }
        })
    }),
    ("a part of a hull judged", |lent| {
        then(lent, |lent, _, before| {
            let (hulls, _) = before.counts();
            if before.hulls.len() % HULL_WORDS != 0 && lent.judged.len() > hulls {
                lent.judged[hulls] = 1;
            }
        })
    }),
    ("hulls noted where there is no room for pairs", |lent| {
        let step = right(lent);
        if step.status == 21 {
            let (hulls, _) = lent.owned().counts();
            for judged in lent.judged.iter_mut().take(hulls) {
                *judged = 1;
            }
        }
        step
    }),
    ("as many pairs as there is room for", |lent| {
        let mut step = right(lent);
        if step.status == 21 {
            let refused = Outcome {
                status: 1,
                contact: Contact::EMPTY,
                retired: 0,
            };
            step.status = 0;
            let (_, bytes) = refused.in_step();
            put(lent.bytes, &bytes);
        }
        step
    }),
];
