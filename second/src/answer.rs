//! From input bytes to the line. Inclusion by a table over pairs of a recipe row and a listing row.

use crate::parcel;
use crate::rows::{
    children, closings, descendants, first_bad, parents, refuse, Bad, Refusal, Table, LISTING_ROWS, RECIPE_ROWS,
};

/// The corner and whether it is a yes.
#[derive(Clone, Copy, Debug, PartialEq, Eq)]
pub struct Answer {
    pub width: usize,
    pub row: usize,
    pub included: bool,
}

/// Lent rows: depths and labels.
pub type Lent<'a> = (&'a [u16], &'a [u32]);

/// For each recipe row v and listing row t: can v go to t and all below v to rows below t?
struct Pairs {
    recipe_children: Vec<Vec<usize>>,
    /// `fits[v][t]`.
    fits: Vec<Vec<bool>>,
    /// `soonest[v][p]`: of the rows after p that fit v, the one that closes first; 0 if none.
    soonest: Vec<Vec<u16>>,
    /// The last row of each listing subtree; slot 0 holds the last row of all.
    last: Vec<usize>,
    closing: Vec<usize>,
}

impl Pairs {
    /// Fills the table from the last recipe row to the first, so that children come before parents.
    fn new(recipe: Lent, listing: Lent) -> Pairs {
        let (m, n) = (recipe.0.len(), listing.0.len());
        let mut pairs = Pairs {
            recipe_children: children(recipe.0),
            fits: vec![vec![false; n + 1]; m + 1],
            soonest: vec![vec![0; n + 1]; m + 1],
            last: std::iter::once(n).chain((1..=n).map(|t| t + descendants(listing.0, t))).collect(),
            closing: closings(listing.0),
        };
        for v in (1..=m).rev() {
            for t in (1..=n).rev() {
                let wanted = pairs.recipe_children[v].len();
                let fit = recipe.1[v - 1] == listing.1[t - 1] && pairs.placed(v, t) == wanted;
                let later = pairs.soonest[v][t] as usize;
                let first = fit && (later == 0 || pairs.closing[t] < pairs.closing[later]);
                pairs.fits[v][t] = fit;
                pairs.soonest[v][t - 1] = if first { t } else { later } as u16;
            }
        }
        pairs
    }

    /// How many of v's first subtrees embed as a forest below t (in the whole listing if t is 0).
    /// Greedy is right: whatever lies right of some choice lies right of the one that closes first.
    fn placed(&self, v: usize, t: usize) -> usize {
        let mut after = t;
        for (i, &child) in self.recipe_children[v].iter().enumerate() {
            let image = self.soonest[child][after] as usize;
            // Rows below t close before all rows after them, so one of them is found if there is any.
            if image == 0 || image > self.last[t] {
                return i;
            }
            after = self.last[image];
        }
        self.recipe_children[v].len()
    }

    /// The highest row of the left-most path with a width of at least 1, or width 0 and the leaf.
    fn corner(&self) -> (usize, usize) {
        let mut v = 0;
        loop {
            let width = self.placed(v, 0);
            if width > 0 || self.recipe_children[v].is_empty() {
                return (width, v);
            }
            v = self.recipe_children[v][0];
        }
    }

    /// The earliest-close map of an included recipe, by its definition.
    fn images(&self, recipe_depths: &[u16]) -> Vec<usize> {
        let parents = parents(recipe_depths);
        let mut images = vec![0; parents.len()];
        for v in 1..parents.len() {
            let parent = images[parents[v]];
            let siblings = &self.recipe_children[parents[v]];
            let index = siblings.iter().position(|&sibling| sibling == v).unwrap();
            // Right of the left sibling's image means after its last descendant.
            let after = if index == 0 { parent } else { self.last[images[siblings[index - 1]]] };
            let allowed = (after + 1..=self.last[parent]).filter(|&t| self.fits[v][t]);
            images[v] = allowed.min_by_key(|&t| self.closing[t]).expect("an included row has an image");
        }
        images
    }
}

/// Refusals 1 to 10, in that order.
fn refused(recipe: Lent, listing: Lent, map: &[u16]) -> Result<(), Refusal> {
    if recipe.0.len() != recipe.1.len() {
        return refuse(1, 0);
    }
    if recipe.0.is_empty() {
        return refuse(2, 0);
    }
    if recipe.0.len() > RECIPE_ROWS {
        return refuse(3, 0);
    }
    if let Some((bad, row)) = first_bad(recipe.0) {
        return refuse(if bad == Bad::Step { 4 } else { 5 }, row);
    }
    if listing.0.len() != listing.1.len() {
        return refuse(6, 0);
    }
    if listing.0.len() > LISTING_ROWS {
        return refuse(7, 0);
    }
    if let Some((bad, row)) = first_bad(listing.0) {
        return refuse(if bad == Bad::Step { 8 } else { 9 }, row);
    }
    if map.len() < recipe.0.len() {
        return refuse(10, 0);
    }
    Ok(())
}

/// The inclusion answer; a yes writes one image per recipe row and no further slot.
pub fn include(recipe: Lent, listing: Lent, map: &mut [u16]) -> Result<Answer, Refusal> {
    refused(recipe, listing, map)?;
    let pairs = Pairs::new(recipe, listing);
    let (width, row) = pairs.corner();
    let included = row == 0 && width == pairs.recipe_children[0].len();
    if included {
        for (v, &image) in pairs.images(recipe.0).iter().enumerate().skip(1) {
            map[v - 1] = image as u16;
        }
    }
    Ok(Answer { width, row, included })
}

/// Both parcels, then 15, then the inclusion answer.
fn answered(input: &[u8]) -> Result<String, Refusal> {
    let (mut recipe, mut listing) = (Table::zeros(RECIPE_ROWS), Table::zeros(LISTING_ROWS));
    let first = parcel::read(input, 0, RECIPE_ROWS, &mut recipe.depths, &mut recipe.labels)?;
    let second = parcel::read(input, first.end, LISTING_ROWS, &mut listing.depths, &mut listing.labels)?;
    if second.end < input.len() {
        return refuse(15, second.end);
    }
    let recipe = (&recipe.depths[..first.rows], &recipe.labels[..first.rows]);
    let listing = (&listing.depths[..second.rows], &listing.labels[..second.rows]);
    let mut map = vec![0; first.rows];
    let answer = include(recipe, listing, &mut map)?;
    let word = if answer.included { "included" } else { "absent" };
    let mut line = format!("{word} {} {}", answer.width, answer.row);
    if answer.included {
        map.iter().for_each(|image| line.push_str(&format!(" {image}")));
    }
    Ok(line + "\n")
}

/// The line for an input, with its newline.
pub fn line(input: &[u8]) -> String {
    answered(input).unwrap_or_else(|refusal| format!("refused {} {}\n", refusal.number, refusal.place))
}
