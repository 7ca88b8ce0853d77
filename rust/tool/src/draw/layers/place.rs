//! The column of everything: as near as can be to the mean column of what it is linked to, with the layer's order and room kept. Links between bends
//! weigh most, so that long arrows are straight.

use super::Graph;

const WORK: usize = 3_000_000;

/// The middles, with the leftmost box at the left edge.
pub(super) fn columns(graph: &Graph) -> Vec<f64> {
    let mut columns = vec![0.0; graph.widths.len()];
    for layer in &graph.layers {
        let mut x = 0.0;
        for (n, cell) in layer.iter().enumerate() {
            x += if n == 0 { 0.0 } else { graph.apart(layer[n - 1], *cell) };
            columns[*cell] = x;
        }
    }
    let links: usize = graph.down.iter().map(Vec::len).sum();
    let sweeps = (WORK / (links + graph.widths.len() + 1)).clamp(2, 120);
    let count = graph.layers.len();
    for sweep in 0..sweeps {
        // The last sweeps look both ways.
        let both = sweep >= sweeps / 2;
        for n in 0..count {
            let (layer, above) = if sweep % 2 == 0 { (n, true) } else { (count - 1 - n, false) };
            settle_layer(graph, layer, above || both, !above || both, &mut columns);
        }
    }
    let left = (0..graph.widths.len()).map(|cell| columns[cell] - graph.widths[cell] / 2.0).fold(f64::INFINITY, f64::min);
    columns.iter().map(|x| x - left).collect()
}

fn settle_layer(graph: &Graph, layer: usize, above: bool, below: bool, columns: &mut [f64]) {
    let cells = &graph.layers[layer];
    let wanted: Vec<(f64, f64)> = cells.iter().map(|cell| wanted(graph, *cell, above, below, columns)).collect();
    let apart: Vec<f64> = cells.windows(2).map(|pair| graph.apart(pair[0], pair[1])).collect();
    for (cell, x) in cells.iter().zip(settled(&wanted, &apart)) {
        columns[*cell] = x;
    }
}

/// Where a box or bend would stand by itself, and how much that weighs.
fn wanted(graph: &Graph, cell: usize, above: bool, below: bool, columns: &[f64]) -> (f64, f64) {
    let (mut sum, mut weight) = (0.0, 0.0);
    let up = graph.up[cell].iter().filter(|_| above);
    for &other in up.chain(graph.down[cell].iter().filter(|_| below)) {
        let w = match (graph.is_box(cell), graph.is_box(other)) {
            (true, true) => 1.0,
            (false, false) => 24.0,
            _ => 2.0,
        };
        sum += w * columns[other];
        weight += w;
    }
    if weight == 0.0 {
        return (columns[cell], 0.01);
    }
    (sum / weight, weight)
}

/// The places, at least so far apart, that are nearest to the wanted ones by the sum of weighed squares: neighbours that want to pass each other move
/// together.
fn settled(wanted: &[(f64, f64)], apart: &[f64]) -> Vec<f64> {
    // Runs of neighbours that stand at their least distance: the sum of what they want from where the run begins, the weight, how many.
    let mut runs: Vec<(f64, f64, usize)> = Vec::new();
    let mut offset = 0.0;
    let mut offsets = Vec::new();
    for (n, (x, weight)) in wanted.iter().enumerate() {
        offset += if n == 0 { 0.0 } else { apart[n - 1] };
        offsets.push(offset);
        let mut run = ((x - offset) * weight, *weight, 1);
        while let Some(last) = runs.last().copied().filter(|last| last.0 / last.1 >= run.0 / run.1) {
            run = (run.0 + last.0, run.1 + last.1, run.2 + last.2);
            runs.pop();
        }
        runs.push(run);
    }
    let starts = runs.iter().flat_map(|run| vec![run.0 / run.1; run.2]);
    starts.zip(&offsets).map(|(start, offset)| start + offset).collect()
}

#[cfg(test)]
mod tests {
    use super::*;

    #[test]
    fn neighbours_share_what_they_want() {
        assert_eq!(settled(&[(0.0, 1.0), (100.0, 1.0)], &[10.0]), [0.0, 100.0]);
        assert_eq!(settled(&[(50.0, 1.0), (50.0, 1.0)], &[10.0]), [45.0, 55.0]);
        assert_eq!(settled(&[(50.0, 3.0), (10.0, 1.0), (500.0, 1.0)], &[10.0, 10.0]), [37.5, 47.5, 500.0]);
    }
}
