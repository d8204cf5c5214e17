//! What the programs of this folder share: the processor's time, and races.

unsafe extern "C" {
    fn clock_gettime(clock: i32, time: &mut [i64; 2]) -> i32;
}

/// The processor's time that this thread has had, in seconds: what else runs on the machine does not count.
fn now() -> f64 {
    const THREAD: i32 = 3;
    let mut time = [0; 2];
    assert_eq!(unsafe { clock_gettime(THREAD, &mut time) }, 0);
    time[0] as f64 + time[1] as f64 / 1e9
}

fn are_same<T: PartialEq>(all: &[T]) -> bool {
    all.windows(2).all(|pair| pair[0] == pair[1])
}

/// Lets each do its work on `start` in a memory of its own, in turns. They have to answer the same and to leave the same.
/// Answers the shortest time of each, in seconds, and what they leave.
pub fn race<M: Copy + PartialEq, T: PartialEq, const N: usize>(
    turns: usize,
    start: &[M],
    works: [&dyn Fn(&mut [M]) -> T; N],
) -> ([f64; N], Vec<M>) {
    let mut left = vec![start.to_vec(); N];
    let mut best = [f64::MAX; N];
    for _ in 0..turns {
        let answers: [T; N] = std::array::from_fn(|i| {
            left[i].copy_from_slice(start);
            let before = now();
            let answer = works[i](&mut left[i]);
            best[i] = best[i].min(now() - before);
            answer
        });
        assert!(are_same(&answers), "they answer differently");
        assert!(are_same(&left), "they leave different memories");
    }
    (best, left.swap_remove(0))
}
