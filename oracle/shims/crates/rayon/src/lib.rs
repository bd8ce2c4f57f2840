//! Stand-in for the crate `rayon`: no worker threads, everything runs on the
//! calling thread.

use std::marker::PhantomData;

pub struct Scope<'s>(PhantomData<&'s ()>);

impl<'s> Scope<'s> {
    pub fn spawn(&self, task: impl FnOnce(&Scope<'s>) + Send + 's) {
        task(self)
    }
}

pub fn scope<'s, R>(body: impl FnOnce(&Scope<'s>) -> R) -> R {
    body(&Scope(PhantomData))
}

pub fn join<A, B>(first: impl FnOnce() -> A, second: impl FnOnce() -> B) -> (A, B) {
    (first(), second())
}

pub fn current_thread_index() -> Option<usize> {
    None
}

pub fn current_num_threads() -> usize {
    1
}

pub mod prelude {
    pub trait SortHere<T> {
        fn par_sort_unstable_by_key<K: Ord>(&mut self, key: impl Fn(&T) -> K);
    }

    impl<T> SortHere<T> for [T] {
        fn par_sort_unstable_by_key<K: Ord>(&mut self, key: impl Fn(&T) -> K) {
            self.sort_unstable_by_key(key)
        }
    }
}
