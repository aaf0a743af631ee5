//! A sequential stand-in for rayon: the parallel iterator is the plain one, so faces come in row order.

pub mod prelude {
    /// What `into_par_iter` asks of a collection, worked one item after another.
    pub trait IntoParallelIterator: IntoIterator + Sized {
        fn into_par_iter(self) -> Self::IntoIter {
            self.into_iter()
        }
    }

    impl<T> IntoParallelIterator for Vec<T> {}
}
