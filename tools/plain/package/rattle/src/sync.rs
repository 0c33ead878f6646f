//! Sums that only a proof reads.

pub mod ledger {
    //! Books of sums. They take no bytes, since only a proof reads them.

    use std::marker::PhantomData;

    /// A kind of sums.
    pub trait Ledger {}

    /// A book that isn't opened yet.
    pub struct Blank;

    /// The sum of all shares.
    pub struct Book<L>(PhantomData<L>);

    /// A share of the sum.
    pub struct Share<L>(PhantomData<L>);

    impl Blank {
        /// A book for sums up to a bound.
        pub fn new(_: u64) -> Blank {
            Blank
        }

        /// Opens the book, with one share.
        pub fn open<L: Ledger>(self) -> (Book<L>, Share<L>) {
            (Book(PhantomData), Share(PhantomData))
        }
    }

    impl<L: Ledger> Book<L> {
        /// Adds to the sum and to a share.
        pub fn add(&mut self, _: &mut Share<L>, _: u64) {}
    }
}
