//! Stands in for the original's categorical models: names that `model.rs` hands on or converts into.
//! Nothing here is ever made.

macro_rules! named {
    ($($name:ident),+) => { $(#[derive(Debug)] pub struct $name;)+ };
}

pub mod contiguous {
    named!(
        ContiguousCategoricalEntropyModel,
        DefaultContiguousCategoricalEntropyModel,
        SmallContiguousCategoricalEntropyModel
    );
}

pub mod lazy_contiguous {
    named!(
        DefaultLazyContiguousCategoricalEntropyModel,
        LazyContiguousCategoricalEntropyModel,
        SmallLazyContiguousCategoricalEntropyModel
    );
}

pub mod lookup_contiguous {
    named!(ContiguousLookupDecoderModel, SmallContiguousLookupDecoderModel);
}

pub mod lookup_noncontiguous {
    use core::marker::PhantomData;

    named!(SmallNonContiguousLookupDecoderModel);

    #[derive(Debug)]
    pub struct NonContiguousLookupDecoderModel<S, P, T, L, const PRECISION: usize>(PhantomData<(S, P, T, L)>);

    impl<M: ?Sized, S, P, T, L, const PRECISION: usize> From<&M>
        for NonContiguousLookupDecoderModel<S, P, T, L, PRECISION>
    {
        fn from(_: &M) -> Self {
            unimplemented!()
        }
    }
}

pub mod non_contiguous {
    use core::marker::PhantomData;

    named!(
        DefaultNonContiguousCategoricalDecoderModel,
        DefaultNonContiguousCategoricalEncoderModel,
        SmallNonContiguousCategoricalDecoderModel,
        SmallNonContiguousCategoricalEncoderModel
    );

    #[derive(Debug)]
    pub struct NonContiguousCategoricalEncoderModel<S, P, const PRECISION: usize>(PhantomData<(S, P)>);

    #[derive(Debug)]
    pub struct NonContiguousCategoricalDecoderModel<S, P, T, const PRECISION: usize>(PhantomData<(S, P, T)>);

    impl<M: ?Sized, S, P, const PRECISION: usize> From<&M> for NonContiguousCategoricalEncoderModel<S, P, PRECISION> {
        fn from(_: &M) -> Self {
            unimplemented!()
        }
    }

    impl<M: ?Sized, S, P, T, const PRECISION: usize> From<&M> for NonContiguousCategoricalDecoderModel<S, P, T, PRECISION> {
        fn from(_: &M) -> Self {
            unimplemented!()
        }
    }
}
