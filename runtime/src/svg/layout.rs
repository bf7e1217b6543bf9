//! Places of a plan's nodes in layers, operands above the steps that use them.

use crate::plan::Plan;

/// Between two boxes of a layer.
const BESIDE: f64 = 36.0;
/// Between two layers.
const BETWEEN: f64 = 64.0;
/// Room that a line takes where it passes a layer.
const PASSING: f64 = 10.0;
/// Rounds of ordering and of moving: plans are small, and more rounds change nothing.
const ROUNDS: usize = 12;

/// Width and height of a node's box.
pub(super) type Size = (f64, f64);

/// A node, or a line from a node on its way past a layer.
#[derive(Clone, Copy)]
pub(super) struct Spot {
    pub node: usize,
    pub layer: usize,
    pub width: f64,
    /// Middle.
    pub x: f64,
}

/// Where everything stands.
pub(super) struct Layout {
    pub spots: Vec<Spot>,
    /// Top of each layer.
    pub tops: Vec<f64>,
    /// Height of each layer.
    pub heights: Vec<f64>,
    pub width: f64,
    pub height: f64,
    /// Order of the spots in each layer.
    order: Vec<Vec<usize>>,
}

/// Operands of a node, none for a leaf.
pub(super) fn operands(plan: &Plan, node: usize) -> Vec<usize> {
    match plan.step_of(node) {
        None => Vec::new(),
        Some(step) if step.left == step.right => vec![step.left],
        Some(step) => vec![step.left, step.right],
    }
}

/// A step stands below its operands, and a leaf directly above its first use.
fn layers(plan: &Plan) -> Vec<usize> {
    let mut layer = vec![0; plan.nodes()];
    for node in plan.leaves..plan.nodes() {
        layer[node] = operands(plan, node).iter().map(|&o| layer[o] + 1).max().unwrap_or(0);
    }
    for leaf in 0..plan.leaves {
        let uses = (plan.leaves..plan.nodes()).filter(|&node| operands(plan, node).contains(&leaf));
        layer[leaf] = uses.map(|node| layer[node] - 1).min().unwrap_or(0);
    }
    layer
}

/// The spots of all nodes, and of all lines that pass a layer.
fn spots(plan: &Plan, sizes: &[Size], layer: &[usize]) -> Vec<Spot> {
    let mut spots = Vec::new();
    for node in 0..plan.nodes() {
        let uses = (plan.leaves..plan.nodes()).filter(|&user| operands(plan, user).contains(&node));
        let last = uses.map(|user| layer[user]).max().unwrap_or(0);
        spots.push(Spot { node, layer: layer[node], width: sizes[node].0, x: 0.0 });
        for passed in layer[node] + 1..last {
            spots.push(Spot { node, layer: passed, width: PASSING, x: 0.0 });
        }
    }
    spots
}

impl Layout {
    pub fn of(plan: &Plan, sizes: &[Size]) -> Layout {
        let layer = layers(plan);
        let spots = spots(plan, sizes, &layer);
        let count = layer.iter().max().map_or(0, |last| last + 1);
        let height = |k: usize| {
            let own = (0..plan.nodes()).filter(|&node| layer[node] == k).map(|node| sizes[node].1);
            own.fold(0.0, f64::max)
        };
        let heights: Vec<f64> = (0..count).map(height).collect();
        let mut tops = Vec::new();
        let mut y = 0.0;
        for height in &heights {
            tops.push(y);
            y += height + BETWEEN;
        }
        let order = (0..count).map(|k| (0..spots.len()).filter(|&s| spots[s].layer == k).collect()).collect();
        let mut layout = Layout { spots, tops, heights, width: 0.0, height: (y - BETWEEN).max(0.0), order };
        layout.arrange(plan);
        layout
    }

    /// The spot of a node's line, or of the node itself, in a layer.
    pub fn spot(&self, node: usize, layer: usize) -> Option<usize> {
        self.spots.iter().position(|spot| spot.node == node && spot.layer == layer)
    }

    /// The spot of a node's box: the first of its spots.
    pub fn own(&self, node: usize) -> Option<&Spot> {
        self.spots.iter().find(|spot| spot.node == node)
    }

    /// Pairs of spots in neighbouring layers that a line joins, the upper first.
    fn links(&self, plan: &Plan) -> Vec<(usize, usize)> {
        let mut links = Vec::new();
        for (place, spot) in self.spots.iter().enumerate() {
            let is_box = self.own(spot.node).is_some_and(|own| own.layer == spot.layer);
            let Some(above) = spot.layer.checked_sub(1) else {
                continue;
            };
            let sources = if is_box { operands(plan, spot.node) } else { vec![spot.node] };
            links.extend(sources.iter().filter_map(|&o| Some((self.spot(o, above)?, place))));
        }
        links
    }

    fn arrange(&mut self, plan: &Plan) {
        let links = self.links(plan);
        self.pack();
        for round in 0..ROUNDS {
            self.sort(&links, round % 2 == 0);
            self.pack();
        }
        for round in 0..ROUNDS {
            self.pull(&links, round % 2 == 0);
        }
        let left = |spot: &Spot| spot.x - spot.width / 2.0;
        let least = self.spots.iter().map(left).fold(f64::INFINITY, f64::min);
        self.spots.iter_mut().for_each(|spot| spot.x -= least);
        self.width = self.spots.iter().map(|s| s.x + s.width / 2.0).fold(0.0, f64::max);
    }

    /// The mean place of a spot's neighbours above or below.
    fn wanted(&self, links: &[(usize, usize)], spot: usize, above: bool) -> f64 {
        let other = |&(up, down): &(usize, usize)| match above {
            true => (down == spot).then_some(up),
            false => (up == spot).then_some(down),
        };
        let places: Vec<f64> = links.iter().filter_map(other).map(|s| self.spots[s].x).collect();
        if places.is_empty() {
            return self.spots[spot].x;
        }
        places.iter().sum::<f64>() / places.len() as f64
    }

    /// Orders each layer by its neighbours' places, so that few lines cross.
    fn sort(&mut self, links: &[(usize, usize)], above: bool) {
        for layer in self.layer_numbers(above) {
            let mut order = self.order[layer].clone();
            let wanted: Vec<f64> = (0..self.spots.len()).map(|s| self.wanted(links, s, above)).collect();
            order.sort_by(|&a, &b| wanted[a].total_cmp(&wanted[b]));
            self.order[layer] = order;
            self.pack_layer(layer);
        }
    }

    fn layer_numbers(&self, downward: bool) -> Vec<usize> {
        let numbers = 0..self.order.len();
        if downward {
            numbers.collect()
        } else {
            numbers.rev().collect()
        }
    }

    fn pack(&mut self) {
        (0..self.order.len()).for_each(|layer| self.pack_layer(layer));
    }

    /// Side by side, around the middle.
    fn pack_layer(&mut self, layer: usize) {
        let order = &self.order[layer];
        let total: f64 = order.iter().map(|&s| self.spots[s].width + BESIDE).sum::<f64>() - BESIDE;
        let mut x = -total / 2.0;
        for &s in order {
            self.spots[s].x = x + self.spots[s].width / 2.0;
            x += self.spots[s].width + BESIDE;
        }
    }

    /// Moves each layer's spots towards their neighbours, in the same order and without overlap.
    fn pull(&mut self, links: &[(usize, usize)], above: bool) {
        for layer in self.layer_numbers(above) {
            let order = self.order[layer].clone();
            let wanted: Vec<f64> = order.iter().map(|&s| self.wanted(links, s, above)).collect();
            let mut placed: Vec<f64> = Vec::new();
            for (k, &s) in order.iter().enumerate() {
                let least = match k.checked_sub(1) {
                    None => f64::NEG_INFINITY,
                    Some(p) => placed[p] + (self.spots[order[p]].width + self.spots[s].width) / 2.0 + BESIDE,
                };
                placed.push(wanted[k].max(least));
            }
            let surplus: f64 = placed.iter().zip(&wanted).map(|(p, w)| p - w).sum();
            let shift = surplus / placed.len().max(1) as f64;
            for (&s, x) in order.iter().zip(placed) {
                self.spots[s].x = x - shift;
            }
        }
    }
}
