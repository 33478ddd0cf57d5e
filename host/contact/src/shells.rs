//! The shells of a hull, as H9 has them: for the place that breaks it, and for the builder.

/// Of each set of half-edges that reach each other by these steps the lowest number, in their order. Each step takes no two
/// half-edges to the same one, so that what is reached reaches back.
///
/// By next and twin the sets are the shells, and the second number is the first that half-edge 0 does not reach; by the
/// twin's next they are the fans.
pub fn lowest<const STEPS: usize>(
    half_edges: usize,
    steps: impl Fn(usize) -> [usize; STEPS],
) -> Vec<usize> {
    let mut reached = vec![false; half_edges];
    let mut lowest = Vec::new();
    for start in 0..half_edges {
        if reached[start] {
            continue;
        }
        lowest.push(start);
        reached[start] = true;
        let mut open = vec![start];
        while let Some(edge) = open.pop() {
            for other in steps(edge) {
                if !std::mem::replace(&mut reached[other], true) {
                    open.push(other);
                }
            }
        }
    }
    lowest
}

/// Two in a word, and more by their number.
pub fn in_words(shells: usize) -> String {
    match shells {
        2 => "two".into(),
        _ => shells.to_string(),
    }
}
