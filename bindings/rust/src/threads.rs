//! Slices shared out among threads. A slice's result depends on the slice alone, so the number of threads shows only
//! in the time.

use std::sync::OnceLock;
use std::thread;

/// As many threads as the machine runs at once. The system is asked once.
pub fn all_cores() -> usize {
    static CORES: OnceLock<usize> = OnceLock::new();
    *CORES.get_or_init(|| thread::available_parallelism().map_or(1, |n| n.get()))
}

/// Applies `work` to each item and its number, on up to `threads` threads; the results in the items' order. Each thread
/// makes what it needs for itself once.
pub(crate) fn for_each<T: Send, C, R: Send>(
    items: Vec<T>,
    threads: usize,
    own: impl Fn() -> C + Sync,
    work: impl Fn(&mut C, usize, T) -> R + Sync,
) -> Vec<R> {
    let one = |first: usize, part: Vec<T>| -> Vec<R> {
        let mut own = own();
        part.into_iter().enumerate().map(|(i, item)| work(&mut own, first + i, item)).collect()
    };
    let n = items.len();
    if threads <= 1 || n < 2 {
        return one(0, items);
    }
    let per = n.div_ceil(threads.min(n));
    let mut rest = items;
    let mut parts = Vec::new();
    while !rest.is_empty() {
        let later = rest.split_off(per.min(rest.len()));
        parts.push((parts.len() * per, rest));
        rest = later;
    }
    let one = &one;
    thread::scope(|scope| {
        let running: Vec<_> = parts.into_iter().map(|(first, part)| scope.spawn(move || one(first, part))).collect();
        // A thread that panicked makes this one panic with the same message.
        running.into_iter().flat_map(|t| t.join().unwrap_or_else(|e| std::panic::resume_unwind(e))).collect()
    })
}

#[cfg(test)]
mod tests {
    use super::*;

    #[test]
    fn order_and_numbers_do_not_depend_on_threads() {
        for n in [0, 1, 2, 7, 68] {
            let want: Vec<usize> = (0..n).map(|i| i * 100 + i).collect();
            for threads in [0, 1, 2, 3, 16, 1000] {
                let items: Vec<usize> = (0..n).collect();
                assert_eq!(for_each(items, threads, || (), |_, i, item| i * 100 + item), want);
            }
        }
    }
}
