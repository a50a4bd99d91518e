//! Stands in for the crate object_chain: a list of plugins as a type. No plugin is ever added here.

/// The first object of a chain.
#[derive(Clone, Debug)]
pub struct Chain<V> {
    pub object: V,
}

/// An object after others.
#[derive(Clone, Debug)]
pub struct Link<V, P> {
    pub object: V,
    pub parent: P,
}

/// A chain of one object or more.
pub trait ChainElement: Sized {
    /// The chain with one more object.
    fn append<V>(self, object: V) -> Link<V, Self> {
        Link { object, parent: self }
    }
}

impl<V> Chain<V> {
    pub fn new(object: V) -> Self {
        Chain { object }
    }
}

impl<V> ChainElement for Chain<V> {}
impl<V, P: ChainElement> ChainElement for Link<V, P> {}
