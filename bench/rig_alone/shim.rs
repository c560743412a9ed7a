// What the simulated rig uses of vectors and of the allocator.
#[derive(Clone, Copy, Debug)]
pub struct AllocError;
#[derive(Clone, Copy, Debug)]
pub struct Global;
pub struct Vec<T>(std::vec::Vec<T>);
impl<T> std::ops::Deref for Vec<T> {
    type Target = [T];
    #[inline(always)]
    fn deref(&self) -> &[T] {
        &self.0
    }
}
impl<T> std::ops::DerefMut for Vec<T> {
    #[inline(always)]
    fn deref_mut(&mut self) -> &mut [T] {
        &mut self.0
    }
}
impl<T> Vec<T> {
    pub fn new(_: Global) -> Self {
        Vec(std::vec::Vec::new())
    }
    pub fn with_capacity(_: Global, n: usize) -> Result<Self, AllocError> {
        Ok(Vec(std::vec::Vec::with_capacity(n)))
    }
    #[inline(always)]
    pub fn push(&mut self, x: T) -> Result<(), AllocError> {
        self.0.push(x);
        Ok(())
    }
    #[inline(always)]
    pub fn pop(&mut self) -> Option<T> {
        self.0.pop()
    }
    #[inline(always)]
    pub fn clear(&mut self) {
        self.0.clear()
    }
}
impl<T: Clone> Vec<T> {
    pub fn filled(_: Global, x: T, n: usize) -> Result<Self, AllocError> {
        Ok(Vec(vec![x; n]))
    }
    pub fn from_slice(_: Global, s: &[T]) -> Result<Self, AllocError> {
        Ok(Vec(s.to_vec()))
    }
    pub fn extend_from_slice(&mut self, s: &[T]) -> Result<(), AllocError> {
        self.0.extend_from_slice(s);
        Ok(())
    }
    pub fn resize(&mut self, n: usize, x: T) -> Result<(), AllocError> {
        self.0.resize(n, x);
        Ok(())
    }
}
