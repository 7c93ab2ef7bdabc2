//! `bench-include` times the inclusion call beside its peers. bench/inclusion.c makes the questions and times the call and the peers in C;
//! this hands it the answer of this program, a table over pairs of rows. The feature `peers` builds it: it links that file and the call.

use second::answer::include;
use std::process::exit;
use std::slice::{from_raw_parts, from_raw_parts_mut};

/// The answer as the bench codes it: the corner, doubled, and one more on a yes; 2 to the 40th for a refusal.
extern "C" fn answer(
    listing_depths: *const u16,
    listing_labels: *const u32,
    listing: usize,
    recipe_depths: *const u16,
    recipe_labels: *const u32,
    recipe: usize,
    map: *mut u16,
) -> u64 {
    // The bench lends whole slices of these lengths, apart from each other, for this call alone.
    let (listing, recipe, map) = unsafe {
        (
            (from_raw_parts(listing_depths, listing), from_raw_parts(listing_labels, listing)),
            (from_raw_parts(recipe_depths, recipe), from_raw_parts(recipe_labels, recipe)),
            from_raw_parts_mut(map, recipe),
        )
    };
    match include(recipe, listing, map) {
        Ok(answer) => 2 * (65536 * answer.width as u64 + answer.row as u64) + answer.included as u64,
        Err(_) => 1 << 40,
    }
}

type Answer = extern "C" fn(*const u16, *const u32, usize, *const u16, *const u32, usize, *mut u16) -> u64;

#[link(name = "inclusion_peers", kind = "static")]
#[link(name = "inclusion_bench", kind = "static")]
extern "C" {
    fn inclusion_bench(second: Answer) -> i32;
}

fn main() {
    exit(unsafe { inclusion_bench(answer) })
}
