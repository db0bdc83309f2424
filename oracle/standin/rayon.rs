//! Sequential stand-in for rayon: join runs left then right; iterators run in order;
//! reduce folds left to right from the identity. No threads.
pub fn join<A, B, RA, RB>(a: A, b: B) -> (RA, RB)
where
    A: FnOnce() -> RA,
    B: FnOnce() -> RB,
{
    let ra = a();
    (ra, b())
}
pub struct Seq<I>(I);
impl<I: Iterator> Seq<I> {
    pub fn zip<J: Iterator>(self, o: Seq<J>) -> Seq<std::iter::Zip<I, J>> {
        Seq(self.0.zip(o.0))
    }
    pub fn with_min_len(self, _: usize) -> Self {
        self
    }
    pub fn map<R, F: FnMut(I::Item) -> R>(self, f: F) -> Seq<std::iter::Map<I, F>> {
        Seq(self.0.map(f))
    }
    pub fn filter<F: FnMut(&I::Item) -> bool>(self, f: F) -> Seq<std::iter::Filter<I, F>> {
        Seq(self.0.filter(f))
    }
    pub fn filter_map<R, F: FnMut(I::Item) -> Option<R>>(
        self,
        f: F,
    ) -> Seq<std::iter::FilterMap<I, F>> {
        Seq(self.0.filter_map(f))
    }
    pub fn enumerate(self) -> Seq<std::iter::Enumerate<I>> {
        Seq(self.0.enumerate())
    }
    pub fn fold<T, D: Fn() -> T, F: FnMut(T, I::Item) -> T>(
        self,
        id: D,
        f: F,
    ) -> Seq<std::iter::Once<T>> {
        Seq(std::iter::once(self.0.fold(id(), f)))
    }
    pub fn reduce<D: Fn() -> I::Item, F: FnMut(I::Item, I::Item) -> I::Item>(
        self,
        id: D,
        f: F,
    ) -> I::Item {
        self.0.fold(id(), f)
    }
    pub fn collect<C: FromIterator<I::Item>>(self) -> C {
        self.0.collect()
    }
}
pub mod prelude {
    use super::Seq;
    pub trait ParSlice<T> {
        fn par_iter(&self) -> Seq<std::slice::Iter<'_, T>>;
        fn par_chunks(&self, n: usize) -> Seq<std::slice::Chunks<'_, T>>;
        fn par_chunks_mut(&mut self, n: usize) -> Seq<std::slice::ChunksMut<'_, T>>;
    }
    impl<T> ParSlice<T> for [T] {
        fn par_iter(&self) -> Seq<std::slice::Iter<'_, T>> {
            Seq(self.iter())
        }
        fn par_chunks(&self, n: usize) -> Seq<std::slice::Chunks<'_, T>> {
            Seq(self.chunks(n))
        }
        fn par_chunks_mut(&mut self, n: usize) -> Seq<std::slice::ChunksMut<'_, T>> {
            Seq(self.chunks_mut(n))
        }
    }
}
