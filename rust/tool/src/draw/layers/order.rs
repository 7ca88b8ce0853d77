//! The order within each layer: everything goes to the mean place of what it is linked to, layer by layer, down and up again, and the order with the
//! fewest crossings is kept.

use super::Graph;

/// How much is done at most, in links that are looked at: a large graph gets fewer sweeps.
const WORK: usize = 1_500_000;

pub(super) fn untangle(graph: &mut Graph) {
    let links: usize = graph.down.iter().map(Vec::len).sum();
    let sweeps = (WORK / (links + graph.widths.len() + 1)).clamp(1, 32);
    begin(graph);
    let mut places = places(graph);
    let mut best = (crossings(graph, &places), graph.layers.clone());
    for sweep in 0..sweeps {
        let count = graph.layers.len();
        for n in 1..count {
            let layer = if sweep % 2 == 0 { n } else { count - 1 - n };
            sort(graph, layer, sweep % 2 == 0, &mut places);
        }
        let now = crossings(graph, &places);
        if now < best.0 {
            best = (now, graph.layers.clone());
        }
    }
    graph.layers = best.1;
}

/// As a walk from the top comes to them.
fn begin(graph: &mut Graph) {
    let mut met = vec![usize::MAX; graph.widths.len()];
    let mut count = 0;
    for root in graph.layers.concat() {
        let mut way = vec![root];
        while let Some(cell) = way.pop() {
            if met[cell] == usize::MAX {
                met[cell] = count;
                count += 1;
                way.extend(graph.down[cell].iter().rev());
            }
        }
    }
    graph.layers.iter_mut().for_each(|layer| layer.sort_by_key(|cell| met[*cell]));
}

/// The place of each within its layer.
fn places(graph: &Graph) -> Vec<usize> {
    let mut places = vec![0; graph.widths.len()];
    for layer in &graph.layers {
        layer.iter().enumerate().for_each(|(place, cell)| places[*cell] = place);
    }
    places
}

fn sort(graph: &mut Graph, layer: usize, from_above: bool, places: &mut [usize]) {
    let links = if from_above { &graph.up } else { &graph.down };
    let wanted = |cell: usize| match links[cell].len() {
        0 => places[cell] as f64,
        n => links[cell].iter().map(|other| places[*other] as f64).sum::<f64>() / n as f64,
    };
    let mut all: Vec<(f64, usize)> = graph.layers[layer].iter().map(|cell| (wanted(*cell), *cell)).collect();
    all.sort_by(|a, b| a.0.total_cmp(&b.0));
    graph.layers[layer] = all.iter().map(|(_, cell)| *cell).collect();
    graph.layers[layer].iter().enumerate().for_each(|(place, cell)| places[*cell] = place);
}

/// How many pairs of links cross, counted by the lower ends in the order of the upper ones.
fn crossings(graph: &Graph, places: &[usize]) -> usize {
    let mut crossed = 0;
    for pair in graph.layers.windows(2) {
        let mut tree = vec![0usize; pair[1].len() + 1];
        let mut before = 0;
        for cell in &pair[0] {
            let mut ends: Vec<usize> = graph.down[*cell].iter().map(|other| places[*other]).collect();
            ends.sort_unstable();
            // Links of one box do not cross, so all are asked before any is put in.
            crossed += ends.iter().map(|end| before - up_to(&tree, *end)).sum::<usize>();
            ends.iter().for_each(|end| put(&mut tree, *end));
            before += ends.len();
        }
    }
    crossed
}

/// How many are at a place or before it; the tree holds sums over stretches of places.
fn up_to(tree: &[usize], place: usize) -> usize {
    let mut at = place + 1;
    let mut sum = 0;
    while at > 0 {
        sum += tree[at];
        at &= at - 1;
    }
    sum
}

fn put(tree: &mut [usize], place: usize) {
    let mut at = place + 1;
    while at < tree.len() {
        tree[at] += 1;
        at += at & at.wrapping_neg();
    }
}

#[cfg(test)]
mod tests {
    use super::*;
    use crate::draw::layers::rank::ranks;

    fn graph(count: usize, arrows: &[(usize, usize)]) -> Graph {
        Graph::of(&vec![(10.0, 10.0); count], arrows, &ranks(count, arrows, |_| false))
    }

    #[test]
    fn crossings_are_counted_and_undone() {
        let mut crossed = graph(6, &[(0, 5), (1, 4), (2, 3), (0, 4)]);
        assert_eq!(crossings(&crossed, &places(&crossed)), 4);
        untangle(&mut crossed);
        assert_eq!(crossings(&crossed, &places(&crossed)), 0);
    }
}
