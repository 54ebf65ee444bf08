//! The search in depth that the judges in plain Rust share: numbers that rise along each edge, or a cycle.

#[derive(Clone, Copy, PartialEq, Eq)]
enum Mark {
    New,
    Open(usize),
    Done(usize),
}

/// Numbers that rise along each edge, or the nodes of a cycle, each with the place of its edge. `first` is the place of a
/// node's first edge, `after` that of the one behind a place, which is `end` behind the last; `to` is where an edge leads.
pub fn find(
    nodes: usize,
    end: usize,
    first: impl Fn(usize) -> usize,
    after: impl Fn(usize, usize) -> usize,
    to: impl Fn(usize, usize) -> usize,
) -> Result<Vec<usize>, Vec<(usize, usize)>> {
    let mut marks = vec![Mark::New; nodes];
    let mut finished = 0;
    for start in 0..nodes {
        if marks[start] != Mark::New {
            continue;
        }
        let mut path = vec![(start, first(start))];
        marks[start] = Mark::Open(0);
        while let Some(&(node, place)) = path.last() {
            let last = path.len() - 1;
            if place == end {
                marks[node] = Mark::Done(finished);
                finished += 1;
                path.truncate(last);
                continue;
            }
            let next = to(node, place);
            match marks[next] {
                Mark::New => {
                    marks[next] = Mark::Open(path.len());
                    path.push((next, first(next)));
                }
                Mark::Open(at) => return Err(path[at..].to_vec()),
                Mark::Done(_) => path[last] = (node, after(node, place)),
            }
        }
    }
    let height = |mark: &Mark| if let Mark::Done(height) = mark { *height } else { 0 };
    Ok(marks.iter().map(|mark| nodes - 1 - height(mark)).collect())
}
