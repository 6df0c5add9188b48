//! The original's `triangulate`, asked by numbers.

use std::cell::Cell;
use std::panic;
use std::sync::Once;

use original::linalg::Vec2;
use original::robust::cdt::triangulate;
use original::robust::exact::rational::R2;

/// The points as the original takes them.
pub fn original_points(points: &[(i32, i32)]) -> Vec<R2> {
    let exact = |&(x, y): &(i32, i32)| R2::from_vec2(Vec2::new(x.into(), y.into()));
    points.iter().map(exact).collect()
}

/// The pairs as the original takes them.
pub fn original_pairs(pairs: &[(u32, u32)]) -> Vec<(usize, usize)> {
    let wide = |&(a, b): &(u32, u32)| (a as usize, b as usize);
    pairs.iter().map(wide).collect()
}

/// The original's triangles in house order, or what it said as it panicked.
pub fn original_triangulate(
    points: &[(i32, i32)],
    pairs: &[(u32, u32)],
) -> Result<Vec<[u32; 3]>, String> {
    let triples = quietly(|| triangulate(&original_points(points), &original_pairs(pairs)))?;
    Ok(in_house_order(
        triples.iter().map(|t| t.map(|v| v as u32)).collect(),
    ))
}

/// The triples in house order: each is turned so that its least number is first, and then they rise.
pub fn in_house_order(mut triples: Vec<[u32; 3]>) -> Vec<[u32; 3]> {
    for triple in &mut triples {
        let least = (0..3).min_by_key(|k| triple[*k]).unwrap();
        triple.rotate_left(least);
    }
    triples.sort_unstable();
    triples
}

thread_local! {
    /// Whether a panic of this thread is an answer, of which nothing is printed.
    static QUIET: Cell<bool> = const { Cell::new(false) };
}

/// What the function gives, or what it said as it panicked.
fn quietly<T>(f: impl FnOnce() -> T) -> Result<T, String> {
    static HOOK: Once = Once::new();
    HOOK.call_once(|| {
        let before = panic::take_hook();
        panic::set_hook(Box::new(move |panic| {
            if !QUIET.get() {
                before(panic);
            }
        }));
    });
    QUIET.set(true);
    // The function has borrowed nothing that could be seen half changed: all it makes is lost.
    let answer = panic::catch_unwind(panic::AssertUnwindSafe(f));
    QUIET.set(false);
    answer.map_err(|said| {
        let words = said.downcast_ref::<&str>().map(|words| words.to_string());
        words
            .or_else(|| said.downcast_ref::<String>().cloned())
            .unwrap_or_else(|| "a panic without words".to_string())
    })
}
