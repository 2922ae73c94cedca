//! GEMM of many items against as many direct calls, and against a loop over each peer's (document 02, K9).

use crate::blas::Blas;
use crate::libraries::Library;
use crate::measure::{median, same_bits};
use crate::own::{Own, BLOCKS};
use crate::problem::numbers;
use crate::seconds;

/// Items, and m, n and k.
const SHAPES: [(usize, i32, i32, i32); 2] = [(1000, 6, 4, 6), (100, 64, 16, 64)];

/// lda is m, so that nothing is copied, or larger.
const PADDINGS: [i32; 2] = [0, 2];

const CALLS: u32 = 10;
const ROUNDS: usize = 101;

/// One A, and the B of all items; α = 1 and β = 0. Only A may have padding.
struct Items {
    items: usize,
    m: i32,
    n: i32,
    k: i32,
    lda: i32,
    a: Vec<f64>,
    b: Vec<f64>,
    /// The elements of a B, and those of a C.
    sizes: (usize, usize),
}

impl Items {
    fn new((items, m, n, k): (usize, i32, i32, i32), padding: i32) -> Items {
        let (lda, sizes) = (m + padding, ((k * n) as usize, (m * n) as usize));
        Items { items, m, n, k, lda, a: numbers((lda * k) as usize, 1), b: numbers(items * sizes.0, 2), sizes }
    }

    /// The C of all items, before the calls.
    fn start(&self) -> Vec<f64> {
        numbers(self.items * self.sizes.1, 3)
    }

    /// What has to be copied.
    fn copied(&self) -> usize {
        if self.lda == self.m {
            0
        } else {
            (self.m * self.k) as usize
        }
    }
}

/// What is timed.
fn shapes() -> impl Iterator<Item = Items> {
    SHAPES.into_iter().flat_map(|shape| PADDINGS.map(|padding| Items::new(shape, padding)))
}

/// One way to make all items: it writes every C and gives the seconds that it took.
type Way<'w> = Box<dyn Fn(&mut [f64]) -> f64 + 'w>;

/// In one call.
fn in_one_call<'w>(own: &'w Own, given: &'w Items) -> Way<'w> {
    let Items { items, m, n, k, lda, ref a, ref b, sizes } = *given;
    let ((w, r), n_code) = (BLOCKS, 'N' as i32);
    Box::new(move |c| {
        let mut pack = vec![0.0; given.copied()];
        let (a, a_len, b, b_len) = (a.as_ptr(), a.len(), b.as_ptr(), b.len());
        let (c, c_len, pack, pack_len) = (c.as_mut_ptr(), c.len(), pack.as_mut_ptr(), pack.len());
        let (b_stride, c_stride, items) = (sizes.0 as i32, sizes.1 as i32, items as i32);
        seconds(CALLS, || {
            let end = unsafe {
                (own.many)(
                    n_code, m, n, k, 1.0, a, a_len, lda, b, b_len, k, b_stride, 0.0, c, c_len, m, c_stride, items,
                    pack, pack_len, w, r,
                )
            };
            assert_eq!((end.number, end.copied), (0, pack_len as u64));
        })
    })
}

/// By a direct call for each.
fn by_direct_calls<'w>(own: &'w Own, given: &'w Items) -> Way<'w> {
    let Items { items, m, n, k, lda, ref a, ref b, sizes } = *given;
    let ((w, r), n_code) = (BLOCKS, 'N' as i32);
    Box::new(move |c| {
        assert_eq!((b.len(), c.len()), (items * sizes.0, items * sizes.1));
        let (a, a_len, b, c) = (a.as_ptr(), a.len(), b.as_ptr(), c.as_mut_ptr());
        let call = |i: usize| unsafe {
            let (b, c) = (b.add(i * sizes.0), c.add(i * sizes.1));
            (own.gemm)(n_code, n_code, m, n, k, 1.0, a, a_len, lda, b, sizes.0, k, 0.0, c, sizes.1, m, w, r)
        };
        seconds(CALLS, || (0..items).for_each(|i| assert_eq!(call(i), 0)))
    })
}

/// By a call of a peer's for each.
fn by_peer<'w>(blas: &'w Blas, given: &'w Items) -> Way<'w> {
    let Items { items, m, n, k, lda, ref a, ref b, sizes } = *given;
    Box::new(move |c| {
        assert_eq!((b.len(), c.len()), (items * sizes.0, items * sizes.1));
        let (a, b, c) = (a.as_ptr(), b.as_ptr(), c.as_mut_ptr());
        let call = |i: usize| unsafe {
            let (b, c) = (b.add(i * sizes.0), c.add(i * sizes.1));
            (blas.gemm)(b"N".as_ptr(), b"N".as_ptr(), &m, &n, &k, &1.0, a, &lda, b, &k, &0.0, c, &m, 1, 1)
        };
        seconds(CALLS, || (0..items).for_each(call))
    })
}

/// The nanoseconds for an item, round by round, of each way. The ways take turns on the same arrays, so that noise hits
/// all alike. Each has to leave the bits that the first one leaves, but for the peers, which round differently: they
/// come after the `exact` ones.
fn times(ways: &[Way], exact: usize, given: &Items) -> Vec<Vec<f64>> {
    let start = given.start();
    let (mut c, mut expected) = (start.clone(), start.clone());
    ways[0](&mut expected);
    let mut times = vec![vec![]; ways.len()];
    for _ in 0..ROUNDS {
        for (place, way) in ways.iter().enumerate() {
            c.copy_from_slice(&start);
            times[place].push(1e9 * way(&mut c) / given.items as f64);
            let close = || c.iter().zip(&expected).all(|(x, y)| (x - y).abs() < 1e-10);
            assert!(same_bits(&c, &expected) || (place >= exact && close()), "the results differ");
        }
    }
    times
}

/// The median over the rounds of the ratio of two times.
fn ratio(times: &[f64], one_call: &[f64]) -> f64 {
    median(times.iter().zip(one_call).map(|(time, one_call)| time / one_call).collect())
}

/// Prints a line for each build and each peer.
fn print(given: &Items, builds: &[Library], peers: &[Library]) {
    let own = builds.iter().filter_map(Library::own);
    let mut ways: Vec<Way> = own.flat_map(|own| [in_one_call(own, given), by_direct_calls(own, given)]).collect();
    ways.extend(peers.iter().filter_map(Library::blas).map(|blas| by_peer(blas, given)));
    let times = times(&ways, 2 * builds.len(), given);
    let (own, of_peers) = times.split_at(2 * builds.len());
    println!(
        "\n{} items of {} by {} times {} by {}, lda {}",
        given.items, given.m, given.k, given.k, given.n, given.lda
    );
    for (build, pair) in builds.iter().zip(own.chunks(2)) {
        let (one_call, direct) = (median(pair[0].clone()), median(pair[1].clone()));
        print!("{:>11}: one call {one_call:7.1}, direct calls {direct:7.1}", build.name);
        println!(", ratio {:.3}", ratio(&pair[1], &pair[0]));
    }
    for (peer, times) in peers.iter().zip(of_peers) {
        let ratios: Vec<String> = own.chunks(2).map(|pair| format!("{:.2}", ratio(times, &pair[0]))).collect();
        println!("{:>11}: {:7.1}, ratios {}", peer.name, median(times.clone()), ratios.join(", "));
    }
}

/// Prints the times of each build, in one call and in direct calls, and those of the peers, and their ratios to the
/// builds' one call.
pub fn report(builds: &[Library], peers: Result<Vec<Library>, String>) {
    let peers = peers.unwrap_or_else(|error| {
        println!("without OpenBLAS: {error}");
        vec![]
    });
    println!("nanoseconds for an item, medians of {ROUNDS} rounds of {CALLS} calls, at w = r = 0");
    println!("and medians of the ratios to one call of each build: above 1 the one call is faster");
    shapes().for_each(|given| print(&given, builds, &peers));
}

#[cfg(test)]
mod tests {
    use super::*;

    #[test]
    fn one_call_has_the_bits_of_direct_calls() {
        let own = Own::linked();
        for given in shapes() {
            let (mut left, mut right) = (given.start(), given.start());
            in_one_call(&own, &given)(&mut left);
            by_direct_calls(&own, &given)(&mut right);
            assert!(same_bits(&left, &right), "{} items, lda {}", given.items, given.lda);
        }
    }
}
