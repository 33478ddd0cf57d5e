//! Writes questions whether two hulls are apart, and their answers, which come from documents 01 and 02 and the Rust text alone: the
//! marked ones, those about the largest hulls there are, and some of every sort. Two files of lines in hexadecimal: a call's frame,
//! whose hulls and transform are asked about, and the two bytes of the answer.
//!
//!     questions FRAMES ANSWERS

#[cfg(rust_text)]
fn main() -> std::io::Result<()> {
    use cases::Numbers;
    use frames::codec::{call_frame, decode, Asked};
    use frames::{apart, hex, largest, requests};
    use records::Apart;

    const PAIRS: usize = 2000;

    let [Some(frames), Some(answers)] = [1, 2].map(|place| std::env::args_os().nth(place)) else {
        eprintln!("usage: questions FRAMES ANSWERS");
        std::process::exit(2);
    };
    let marked = requests::apart().map(|example| example.frame);
    let largest = largest::frames();
    let largest = largest.iter().filter_map(|frame| frame.bytes());
    let mut numbers = Numbers::new(1);
    // Lists of other lengths than the sizes ask for are no frame.
    let any = std::iter::repeat_with(|| apart::any::given(&mut numbers)).filter(|given| {
        [&given.a, &given.b].into_iter().all(|hull| {
            hull.size.numbers() == Some(hull.numbers.len())
                && hull.size.links() == Some(hull.links.len())
        })
    });
    let any = any.take(PAIRS).map(|given| call_frame(&given.call()));
    let all = marked
        .into_iter()
        .chain(largest.map(<[u8]>::to_vec))
        .chain(any);
    let (mut lines, mut told) = (Vec::new(), Vec::new());
    for frame in all {
        let Ok(Asked::Call(given)) = decode(&frame) else {
            continue;
        };
        let Apart { status, apart } = given.call().question().wanted();
        lines.extend(hex::written(&frame));
        lines.push(b'\n');
        told.extend(hex::written(&[status, apart]));
        told.push(b'\n');
    }
    std::fs::write(frames, lines)?;
    std::fs::write(answers, told)
}

#[cfg(not(rust_text))]
fn main() {
    eprintln!("the Rust text is not at hand, and nothing is written");
    std::process::exit(2);
}
