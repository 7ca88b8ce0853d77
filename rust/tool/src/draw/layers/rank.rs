//! Which layer a box stands in: below every box from which an arrow leads to it, but for the arrows that close a cycle.

/// The layer of each box. Where an arrow to one of the heads lies on a cycle, it closes it.
pub fn ranks(count: usize, arrows: &[(usize, usize)], is_head: impl Fn(usize) -> bool) -> Vec<usize> {
    let rings = rings(count, arrows);
    let turn = |&(from, to): &(usize, usize)| if is_head(to) && rings[from] == rings[to] { (to, from) } else { (from, to) };
    let first: Vec<(usize, usize)> = arrows.iter().map(turn).collect();
    let down: Vec<(usize, usize)> = first.iter().zip(turned(count, &first)).map(|(&(from, to), turned)| if turned { (to, from) } else { (from, to) }).collect();
    let mut missing = vec![0; count];
    down.iter().for_each(|(_, to)| missing[*to] += 1);
    let tops: Vec<usize> = (0..count).filter(|node| missing[*node] == 0).collect();
    let below = leading(count, &down);
    let mut ranks = vec![0; count];
    let mut due = tops.clone();
    while let Some(node) = due.pop() {
        for &to in &below[node] {
            ranks[to] = ranks[to].max(ranks[node] + 1);
            missing[to] -= 1;
            if missing[to] == 0 {
                due.push(to);
            }
        }
    }
    // What nothing leads to stands no higher than it has to.
    for node in tops {
        ranks[node] = below[node].iter().map(|to| ranks[*to] - 1).min().unwrap_or(0);
    }
    ranks
}

fn leading(count: usize, arrows: &[(usize, usize)]) -> Vec<Vec<usize>> {
    let mut below = vec![Vec::new(); count];
    arrows.iter().for_each(|(from, to)| below[*from].push(*to));
    below
}

/// The ring of each box: two are of one ring where arrows lead from each to the other. By a walk that notes when it leaves a box, and walks back in that order.
fn rings(count: usize, arrows: &[(usize, usize)]) -> Vec<usize> {
    let back: Vec<(usize, usize)> = arrows.iter().map(|(from, to)| (*to, *from)).collect();
    let (on, back) = (leading(count, arrows), leading(count, &back));
    let mut left = Vec::new();
    let mut seen = vec![false; count];
    for root in 0..count {
        let mut way = vec![(root, 0)];
        while let Some((node, next)) = way.pop() {
            if next == 0 && std::mem::replace(&mut seen[node], true) {
                continue;
            }
            match on[node].get(next) {
                Some(to) => way.extend([(node, next + 1), (*to, 0)]),
                None => left.push(node),
            }
        }
    }
    let mut rings = vec![usize::MAX; count];
    for &root in left.iter().rev() {
        let mut way = vec![root];
        while let Some(node) = way.pop() {
            if rings[node] == usize::MAX {
                rings[node] = root;
                way.extend(&back[node]);
            }
        }
    }
    rings
}

/// The arrows that lead back to a box from which the walk came: turned round, they leave no cycle.
fn turned(count: usize, arrows: &[(usize, usize)]) -> Vec<bool> {
    let mut out = vec![Vec::new(); count];
    let mut is_met = vec![false; count];
    for (k, (from, to)) in arrows.iter().enumerate() {
        out[*from].push(k);
        is_met[*to] = true;
    }
    let mut turned = vec![false; arrows.len()];
    let mut seen = vec![Seen::Not; count];
    let (first, rest): (Vec<usize>, Vec<usize>) = (0..count).partition(|node| !is_met[*node]);
    for root in first.into_iter().chain(rest) {
        let mut way = if seen[root] == Seen::Not { vec![(root, 0)] } else { Vec::new() };
        while let Some((node, next)) = way.pop() {
            seen[node] = Seen::Open;
            let k = match out[node].get(next) {
                Some(k) => *k,
                None => {
                    seen[node] = Seen::Done;
                    continue;
                }
            };
            way.push((node, next + 1));
            match seen[arrows[k].1] {
                Seen::Open => turned[k] = true,
                Seen::Not => way.push((arrows[k].1, 0)),
                Seen::Done => {}
            }
        }
    }
    turned
}

#[derive(Clone, Copy, PartialEq, Eq)]
enum Seen {
    Not,
    Open,
    Done,
}

#[cfg(test)]
mod tests {
    use super::*;

    #[test]
    fn layers_of_a_cycle() {
        let none = |_| false;
        assert_eq!(ranks(4, &[(0, 1), (1, 2), (2, 0), (1, 3), (0, 3)], none), [0, 1, 2, 2]);
        assert_eq!(ranks(4, &[(0, 1), (1, 2), (3, 2)], none), [0, 1, 2, 1]);
        assert_eq!(ranks(3, &[], none), [0, 0, 0]);
    }

    #[test]
    fn heads_of_a_ring_stand_side_by_side() {
        let ring = [(0, 2), (2, 1), (1, 3), (3, 0), (3, 4)];
        assert_eq!(ranks(5, &ring, |_| false), [0, 2, 1, 3, 4]);
        assert_eq!(ranks(5, &ring, |node| node < 2), [0, 0, 1, 1, 2]);
        assert_eq!(rings(5, &ring), [rings(5, &ring)[0]; 4].into_iter().chain([4]).collect::<Vec<_>>());
    }
}
