//! A graph in layers: arrows point down, but for those that close a cycle. Long arrows get a bend in every layer that they pass, so that no arrow runs
//! through a box; boxes of a layer stand side by side and never overlap.

mod order;
mod place;
mod rank;

use super::{at, Area, Point};

/// The boxes where they stand, each arrow from point to point, and the room that all of it takes.
pub struct Laid {
    pub areas: Vec<Area>,
    pub routes: Vec<Vec<Point>>,
    pub width: f64,
    pub height: f64,
}

/// Boxes first and bends after them, by layer, with the links from a layer to the next.
struct Graph {
    boxes: usize,
    widths: Vec<f64>,
    layers: Vec<Vec<usize>>,
    up: Vec<Vec<usize>>,
    down: Vec<Vec<usize>>,
    /// For each arrow what it passes, from its upper end to its lower one.
    chains: Vec<Vec<usize>>,
}

const BEND: f64 = 8.0;
/// How far an arrow stays upright outside a layer: room for its tip.
const LEAD: f64 = 11.0;
/// How far from its corners a box has no arrow.
const INSET: f64 = 18.0;

/// So many boxes are laid out in one way alone.
const MANY: usize = 1000;

/// Lays out boxes of these widths and heights with these arrows, none from a box to itself. Of two layouts, one in which an arrow to a head points up
/// wherever it lies on a cycle and one in which as few do as may be, it takes the one that fits better on a screen.
pub fn lay(sizes: &[(f64, f64)], arrows: &[(usize, usize)], is_head: impl Fn(usize) -> bool) -> Laid {
    let deep = laid(sizes, arrows, &rank::ranks(sizes.len(), arrows, |_| false));
    if sizes.len() > MANY {
        return deep;
    }
    let wide = laid(sizes, arrows, &rank::ranks(sizes.len(), arrows, is_head));
    let needs = |laid: &Laid| (laid.width / 1.6).max(laid.height);
    if needs(&wide) < needs(&deep) {
        wide
    } else {
        deep
    }
}

fn laid(sizes: &[(f64, f64)], arrows: &[(usize, usize)], ranks: &[usize]) -> Laid {
    let mut graph = Graph::of(sizes, arrows, ranks);
    order::untangle(&mut graph);
    let columns = place::columns(&graph);
    let rows = rows(&graph, sizes);
    let areas: Vec<Area> = areas(&graph, sizes, &columns, &rows);
    let ends = ends(&graph, &areas, &columns);
    let routes = arrows.iter().enumerate().map(|(k, arrow)| route(&graph, k, &areas, &columns, &rows, &ends, graph.chains[k][0] != arrow.0)).collect();
    let right = (0..graph.widths.len()).map(|c| columns[c] + graph.widths[c] / 2.0).fold(0.0, f64::max);
    Laid { areas, routes, width: right, height: rows.last().map_or(0.0, |row| row.1) }
}

impl Graph {
    fn of(sizes: &[(f64, f64)], arrows: &[(usize, usize)], ranks: &[usize]) -> Graph {
        let count = sizes.len();
        let mut graph = Graph {
            boxes: count,
            widths: sizes.iter().map(|size| size.0).collect(),
            layers: vec![Vec::new(); ranks.iter().max().map_or(0, |last| last + 1)],
            up: vec![Vec::new(); count],
            down: vec![Vec::new(); count],
            chains: Vec::new(),
        };
        (0..count).for_each(|node| graph.layers[ranks[node]].push(node));
        for &(from, to) in arrows {
            let (upper, lower) = if ranks[from] < ranks[to] { (from, to) } else { (to, from) };
            let mut chain = vec![upper];
            for rank in ranks[upper] + 1..ranks[lower] {
                chain.push(graph.bend(rank));
            }
            chain.push(lower);
            chain.windows(2).for_each(|pair| graph.link(pair[0], pair[1]));
            graph.chains.push(chain);
        }
        graph
    }

    fn bend(&mut self, rank: usize) -> usize {
        let cell = self.widths.len();
        self.widths.push(BEND);
        self.up.push(Vec::new());
        self.down.push(Vec::new());
        self.layers[rank].push(cell);
        cell
    }

    fn link(&mut self, upper: usize, lower: usize) {
        self.down[upper].push(lower);
        self.up[lower].push(upper);
    }

    fn is_box(&self, cell: usize) -> bool {
        cell < self.boxes
    }

    /// How much room two neighbours of a layer need from middle to middle.
    fn apart(&self, left: usize, right: usize) -> f64 {
        let free = if self.is_box(left) && self.is_box(right) { 26.0 } else { 11.0 };
        (self.widths[left] + self.widths[right]) / 2.0 + free
    }
}

/// The top and the foot of each layer; where many arrows change their columns the next one is further away.
fn rows(graph: &Graph, sizes: &[(f64, f64)]) -> Vec<(f64, f64)> {
    let mut top = 0.0;
    let mut rows = Vec::new();
    for layer in &graph.layers {
        let height = layer.iter().filter(|cell| graph.is_box(**cell)).map(|cell| sizes[*cell].1).fold(0.0, f64::max);
        let links: usize = layer.iter().map(|cell| graph.down[*cell].len()).sum();
        rows.push((top, top + height));
        top += height + 46.0 + (2.5 * links as f64).min(80.0);
    }
    rows
}

fn areas(graph: &Graph, sizes: &[(f64, f64)], columns: &[f64], rows: &[(f64, f64)]) -> Vec<Area> {
    let mut areas = vec![Area::default(); graph.boxes];
    for (layer, row) in graph.layers.iter().zip(rows) {
        for &cell in layer.iter().filter(|cell| graph.is_box(**cell)) {
            areas[cell] = Area { middle: at(columns[cell], (row.0 + row.1) / 2.0), width: sizes[cell].0, height: sizes[cell].1 };
        }
    }
    areas
}

/// Where each arrow leaves its upper box and reaches its lower one: side by side, in the order in which they come.
fn ends(graph: &Graph, areas: &[Area], columns: &[f64]) -> Vec<(f64, f64)> {
    // Below and above each box the next column on the way, and the arrow.
    let mut feet: Vec<Vec<(f64, usize)>> = vec![Vec::new(); graph.boxes];
    let mut tops = feet.clone();
    for (k, chain) in graph.chains.iter().enumerate() {
        let last = chain.len() - 1;
        feet[chain[0]].push((columns[chain[1]], k));
        tops[chain[last]].push((columns[chain[last - 1]], k));
    }
    let mut ends = vec![(0.0, 0.0); graph.chains.len()];
    for (node, area) in areas.iter().enumerate() {
        spread(area, &mut feet[node]).for_each(|(k, x)| ends[k].0 = x);
        spread(area, &mut tops[node]).for_each(|(k, x)| ends[k].1 = x);
    }
    ends
}

fn spread<'a>(area: &Area, here: &'a mut [(f64, usize)]) -> impl Iterator<Item = (usize, f64)> + 'a {
    here.sort_by(|a, b| a.0.total_cmp(&b.0).then(a.1.cmp(&b.1)));
    let (count, middle) = (here.len() as f64, area.middle.x);
    let step = ((area.width - 2.0 * INSET) / count.max(1.0)).min(20.0);
    here.iter().enumerate().map(move |(place, (_, k))| (*k, middle + (place as f64 - (count - 1.0) / 2.0) * step))
}

/// The points of one arrow, from its beginning to its end.
fn route(graph: &Graph, k: usize, areas: &[Area], columns: &[f64], rows: &[(f64, f64)], ends: &[(f64, f64)], turned: bool) -> Vec<Point> {
    let chain = &graph.chains[k];
    let (first, last) = (chain[0], chain[chain.len() - 1]);
    let row_of = |node: usize| rows.iter().position(|row| row.0 <= areas[node].middle.y && areas[node].middle.y <= row.1).unwrap_or(0);
    let upper = row_of(first);
    let (from, to) = ends[k];
    let mut points = vec![at(from, areas[first].bottom()), at(from, rows[upper].1 + LEAD)];
    for (n, cell) in chain[1..chain.len() - 1].iter().enumerate() {
        let row = rows[upper + n + 1];
        points.extend([at(columns[*cell], row.0 - LEAD), at(columns[*cell], row.1 + LEAD)]);
    }
    points.extend([at(to, rows[row_of(last)].0 - LEAD), at(to, areas[last].top())]);
    if turned {
        points.reverse();
    }
    points
}

#[cfg(test)]
mod tests {
    use super::*;

    fn overlap(a: &Area, b: &Area) -> bool {
        (a.middle.x - b.middle.x).abs() < (a.width + b.width) / 2.0 && (a.middle.y - b.middle.y).abs() < (a.height + b.height) / 2.0
    }

    /// Graphs that a plain sequence of numbers draws.
    fn some(seed: u64) -> (Vec<(f64, f64)>, Vec<(usize, usize)>) {
        let mut state = seed * 2 + 1;
        let mut below = |n: usize| {
            state = state.wrapping_mul(6364136223846793005).wrapping_add(1442695040888963407);
            (state >> 33) as usize % n
        };
        let count = 1 + below(30);
        let sizes = (0..count).map(|_| (40.0 + below(90) as f64, 20.0 + below(40) as f64)).collect();
        let arrows = (0..below(60)).map(|_| (below(count), below(count))).filter(|(a, b)| a != b).collect();
        (sizes, arrows)
    }

    #[test]
    fn boxes_apart_and_arrows_round_them() {
        for seed in 0..300 {
            let (sizes, arrows) = some(seed);
            let laid = lay(&sizes, &arrows, |node| node % 3 == 0);
            for (n, a) in laid.areas.iter().enumerate() {
                assert!(laid.areas[..n].iter().all(|b| !overlap(a, b)), "{}", seed);
                assert!(a.left() >= -0.05 && a.right() <= laid.width + 0.05 && a.top() >= -0.05 && a.bottom() <= laid.height + 0.05);
            }
            for ((from, to), route) in arrows.iter().zip(&laid.routes) {
                let on = |point: Point, area: &Area| (point.x - area.middle.x).abs() <= area.width / 2.0 && (point.y - area.middle.y).abs() <= area.height / 2.0 + 0.05;
                assert!(on(route[0], &laid.areas[*from]) && on(route[route.len() - 1], &laid.areas[*to]), "{}", seed);
                // Between two layers nothing stands; within one an arrow is upright.
                for pair in route.windows(2) {
                    let within = |area: &Area| pair.iter().any(|p| (p.x - area.middle.x).abs() < area.width / 2.0 && (p.y - area.middle.y).abs() < area.height / 2.0 - 0.05);
                    assert!(!laid.areas.iter().any(within), "{}", seed);
                }
            }
        }
    }

    #[test]
    fn nothing_and_one() {
        assert!(lay(&[], &[], |_| false).areas.is_empty());
        assert_eq!(lay(&[(50.0, 20.0)], &[], |_| false).areas[0].middle, at(25.0, 10.0));
    }
}
