//! Stand-in for `rayon`: the same results in the same order, one after another.

pub mod iter {
    /// Stands for a parallel iterator; runs in order.
    pub struct InOrder<I>(I);

    pub trait IntoParallelRefIterator<'a> {
        type Iter;

        fn par_iter(&'a self) -> Self::Iter;
    }

    impl<'a, T: 'a> IntoParallelRefIterator<'a> for Vec<T> {
        type Iter = InOrder<std::slice::Iter<'a, T>>;

        fn par_iter(&'a self) -> Self::Iter {
            InOrder(self.iter())
        }
    }

    pub trait ParallelIterator: Sized {
        type Item;

        fn into_order(self) -> impl Iterator<Item = Self::Item>;

        fn flat_map<P, F>(self, f: F) -> InOrder<impl Iterator<Item = P::Item>>
        where
            P: IntoIterator,
            F: Fn(Self::Item) -> P,
        {
            InOrder(self.into_order().flat_map(f))
        }

        fn collect<C: FromIterator<Self::Item>>(self) -> C {
            self.into_order().collect()
        }
    }

    impl<I: Iterator> ParallelIterator for InOrder<I> {
        type Item = I::Item;

        fn into_order(self) -> impl Iterator<Item = I::Item> {
            self.0
        }
    }
}
