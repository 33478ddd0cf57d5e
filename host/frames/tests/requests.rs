//! The answers that document 01 wants have what document 02's examples say; and frames and answers are those of the folder
//! of the examples, where that is at hand.
#![cfg(rust_text)]

use frames::codec::{
    decode, Asked, COUNT, HULL_A, NEXT_CACHE, PLACES, RETIRED, STATUS, UNIT_AND_SIZES,
};
use frames::requests::{self, ApartExample, Example};
use frames::{hex, wanted};
use records::Apart;
use std::fs;
use std::path::{Path, PathBuf};

fn answer(example: &Example) -> Vec<u8> {
    wanted::to_frame(&example.frame).expect("the Rust text is at hand")
}

#[test]
fn examples() {
    for example in requests::all() {
        let answer = answer(&example);
        let cache = example.cache;
        let mut next = cache.separation.to_be_bytes().to_vec();
        next.extend([cache.kind, cache.index_a, cache.index_b, cache.hit]);
        assert_eq!(answer[STATUS], example.status, "{}", example.words);
        assert_eq!(answer[NEXT_CACHE..COUNT], next, "{}", example.words);
        assert_eq!(answer[COUNT], example.count, "{}", example.words);
        let places = &answer[PLACES..RETIRED];
        assert_eq!(places, example.places, "{}", example.words);
        assert_eq!(answer[RETIRED], example.retired, "{}", example.words);
    }
}

fn asked(example: &ApartExample) -> Apart {
    example.given().call().question().wanted()
}

#[test]
fn examples_of_questions() {
    for example in requests::apart() {
        assert_eq!(asked(&example), example.answer, "{}", example.words);
    }
    // The call about the same hulls.
    let statuses = requests::apart()
        .map(|example| wanted::to_frame(&example.frame).expect("the Rust text is at hand")[STATUS]);
    assert_eq!(statuses, [0, 0, 0, 0, 0, 1, 5, 17]);
}

/// The folder of the examples, which stands beside that of the Rust text.
fn folder() -> Option<PathBuf> {
    let folder = Path::new(oracle::TEXT?).join("../../marked");
    folder.is_dir().then_some(folder)
}

/// An answer as it was when the request landed: k's ends before the mark and the places, j's has no places before the mark.
fn answer_as_landed(letter: char, mut answer: Vec<u8>) -> Vec<u8> {
    match letter {
        'k' => answer.truncate(PLACES),
        'j' => drop(answer.drain(PLACES..RETIRED)),
        _ => {}
    }
    answer
}

/// A frame as it was when the request landed: before i there was no unit, whose two bytes stand before each hull's V, and all
/// hulls were in metres.
fn frame_as_landed(letter: char, mut frame: Vec<u8>) -> Vec<u8> {
    if letter == 'i' {
        return frame;
    }
    let Ok(Asked::Call(given)) = decode(&frame) else {
        panic!("an example that is no call");
    };
    assert_eq!((given.a.size.unit, given.b.size.unit), (1, 1));
    let size = given.a.size;
    let lists = 4 * size.numbers().expect("small") + size.links().expect("small");
    let hull_b = HULL_A + UNIT_AND_SIZES + lists;
    for unit in [hull_b, HULL_A] {
        frame.drain(unit..unit + 2);
    }
    frame
}

/// The lines of a file of the folder.
fn lines(folder: &Path, name: String) -> Vec<Vec<u8>> {
    let text = fs::read_to_string(folder.join(name)).expect("the file is there");
    let lines = text.lines().map(|line| hex::read(line.as_bytes()));
    lines.collect::<Option<Vec<_>>>().expect("digits")
}

/// Frames and answers of a request: both files have one line an example.
fn files(folder: &Path, letter: char, examples: usize) -> impl Iterator<Item = (Vec<u8>, Vec<u8>)> {
    let [frames, answers] = ["hex", "answers"].map(|end| lines(folder, format!("{letter}.{end}")));
    assert_eq!([frames.len(), answers.len()], [examples; 2]);
    frames.into_iter().zip(answers)
}

#[test]
fn files_of_the_examples() {
    let Some(folder) = folder() else {
        println!("left out, since the folder of the examples is not at hand");
        return;
    };
    for (letter, examples) in requests::by_request() {
        let files = files(&folder, letter, examples.len());
        for (example, (frame, marked)) in examples.iter().zip(files) {
            let own = frame_as_landed(letter, example.frame.clone());
            assert!(own == frame, "frame of {}", example.words);
            let ours = answer_as_landed(letter, answer(example));
            assert_eq!(ours, marked, "{}", example.words);
        }
    }
    let examples = requests::apart();
    let files = files(&folder, 'b', examples.len());
    for (example, (frame, marked)) in examples.iter().zip(files) {
        assert!(example.frame == frame, "frame of {}", example.words);
        let Apart { status, apart } = asked(example);
        assert_eq!([status, apart], marked[..], "{}", example.words);
    }
}
