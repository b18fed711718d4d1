//! The vector that the published files take from the crate's util::sys.
pub(crate) mod sys {
    pub(crate) type Vec<A> = std::vec::Vec<A>;

    pub(crate) fn new_vec_with_capacity<A>(capacity: usize) -> Vec<A> {
        Vec::with_capacity(capacity)
    }
}
