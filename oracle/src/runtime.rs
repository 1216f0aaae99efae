//! Stand-in for the runtime: the trait that the instrument implements.

pub trait AudioSource {
    fn fill(&mut self, out: &mut [f32]) -> usize;
}
