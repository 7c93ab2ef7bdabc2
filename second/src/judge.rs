//! Brute force for small cases: tries all maps, straight from the definitions.

use crate::answer::{Answer, Lent};
use crate::rows::{children, closings, descendants, parents};

/// Opening and closing numbers of a table.
struct Numbers<'a> {
    labels: &'a [u32],
    closing: Vec<usize>,
}

impl Numbers<'_> {
    fn ancestor(&self, u: usize, w: usize) -> bool {
        u < w && self.closing[u] > self.closing[w]
    }

    fn left_of(&self, u: usize, w: usize) -> bool {
        u < w && self.closing[u] < self.closing[w]
    }
}

/// Can the pair (v, t) stand beside the pairs chosen before it?
fn agrees(recipe: &Numbers, listing: &Numbers, chosen: &[(usize, usize)], v: usize, t: usize) -> bool {
    recipe.labels[v - 1] == listing.labels[t - 1]
        && chosen.iter().all(|&(w, s)| {
            s != t
                && recipe.ancestor(v, w) == listing.ancestor(t, s)
                && recipe.ancestor(w, v) == listing.ancestor(s, t)
                && recipe.left_of(v, w) == listing.left_of(t, s)
                && recipe.left_of(w, v) == listing.left_of(s, t)
        })
}

/// Is there a map of the remaining rows beside the pairs chosen before?
fn some_map(recipe: &Numbers, listing: &Numbers, chosen: &mut Vec<(usize, usize)>, rest: &[usize]) -> bool {
    let Some((&v, rest)) = rest.split_first() else {
        return true;
    };
    (1..=listing.labels.len()).any(|t| {
        if !agrees(recipe, listing, chosen, v, t) {
            return false;
        }
        chosen.push((v, t));
        let found = some_map(recipe, listing, chosen, rest);
        chosen.pop();
        found
    })
}

/// The corner by its definition, with `kin` the children of each recipe row.
fn corner(recipe: &Numbers, listing: &Numbers, kin: &[Vec<usize>], below: &[usize]) -> (usize, usize) {
    let mut v = 0;
    loop {
        for width in (1..=kin[v].len()).rev() {
            let rows: Vec<usize> = kin[v][..width].iter().flat_map(|&c| c..=c + below[c]).collect();
            if some_map(recipe, listing, &mut Vec::new(), &rows) {
                return (width, v);
            }
        }
        match kin[v].first() {
            Some(&child) => v = child,
            None => return (0, v),
        }
    }
}

/// The corner, whether a map of all rows exists, and the earliest-close images if so.
pub fn judge(recipe: Lent, listing: Lent) -> (Answer, Vec<usize>) {
    let (kin, up) = (children(recipe.0), parents(recipe.0));
    let below: Vec<usize> = (0..=recipe.0.len()).map(|v| if v == 0 { 0 } else { descendants(recipe.0, v) }).collect();
    let recipe = Numbers { labels: recipe.1, closing: closings(recipe.0) };
    let listing = Numbers { labels: listing.1, closing: closings(listing.0) };
    let all: Vec<usize> = (1..up.len()).collect();
    let included = some_map(&recipe, &listing, &mut Vec::new(), &all);
    let (width, row) = corner(&recipe, &listing, &kin, &below);
    let mut images = vec![0; up.len()];
    for v in all.iter().copied().filter(|_| included) {
        let left = kin[up[v]].iter().copied().take_while(|&sibling| sibling < v).last();
        let rest: Vec<usize> = (v + 1..=v + below[v]).collect();
        let allowed = (1..=listing.labels.len()).filter(|&t| {
            (up[v] == 0 || listing.ancestor(images[up[v]], t))
                && left.is_none_or(|sibling| listing.left_of(images[sibling], t))
                && recipe.labels[v - 1] == listing.labels[t - 1]
                && some_map(&recipe, &listing, &mut vec![(v, t)], &rest)
        });
        images[v] = allowed.min_by_key(|&t| listing.closing[t]).expect("an included row has an image");
    }
    (Answer { width, row, included }, images[1..].to_vec())
}
