//! What the original uses of the crate bumpalo: room for copies. They are never given back, and no test makes one.

#[derive(Default)]
pub struct Bump;

impl Bump {
    /// A copy that lives as long as the room.
    pub fn alloc_slice_copy<T: Copy>(&self, slice: &[T]) -> &[T] {
        Box::leak(Box::from(slice))
    }
}
