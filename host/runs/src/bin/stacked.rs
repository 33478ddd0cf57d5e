//! The story that the two sample programs of a step print (host/contact/examples/stack.rs, host/c/stack.c), told by the first of
//! them with every step made by the second writing, over the Rust text, in the library's place. tools/hosts.sh holds both to it.

#[cfg(rust_text)]
mod told {
    mod contact {
        pub use ::contact::*;
        use frames::steps::{wanted, Lists};

        /// As the second writing has it, the work done by the text.
        pub fn step<'a>(
            hulls: &Hulls<'a>,
            pairs: &'a [Pair],
            transforms: &[Transform],
            caches: &mut [SatCache],
            room: &'a mut StepRoom,
        ) -> Result<Stepped<'a>, NoRoom> {
            room.grow(hulls.len(), pairs.len());
            let floats = |t: &Transform| [t.p.x, t.p.y, t.p.z, t.q.v.x, t.q.v.y, t.q.v.z, t.q.s];
            let written = wanted::of(&Lists {
                numbers: hulls.numbers.to_vec(),
                links: hulls.links.to_vec(),
                hulls: hulls.records.iter().flat_map(|r| r.words()).collect(),
                pairs: pairs.iter().flat_map(|pair| [pair.a, pair.b]).collect(),
                transforms: transforms.iter().flat_map(floats).collect(),
                judged: room.judged.clone(),
                caches: caches.iter().flat_map(|cache| cache.words()).collect(),
                floats: room.floats.clone(),
                bytes: room.bytes.clone(),
            });
            assert_eq!(written.step.status, 0, "the sample lends enough");
            for (cache, &words) in caches.iter_mut().zip(written.caches.as_chunks().0) {
                *cache = SatCache::of_words(words);
            }
            *room = StepRoom {
                judged: written.judged,
                floats: written.floats,
                bytes: written.bytes,
            };
            Ok(Stepped::written(*hulls, pairs, written.step.points, room))
        }
    }

    include!("../../../contact/examples/stack.rs");
}

#[cfg(rust_text)]
fn main() -> std::process::ExitCode {
    told::main()
}

#[cfg(not(rust_text))]
fn main() {
    println!("left out, since the Rust text is not at hand: the story of the stack");
}
