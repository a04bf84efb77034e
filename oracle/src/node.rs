//! Stand-in for the crate's `node`: the program nodes that `dag.rs` names.
//!
//! No node is ever made; the items exist so that the text of `dag.rs` compiles unchanged. No compared answer
//! depends on them.

use crate::dag::Dag;
use std::hash::Hash;
use std::sync::Arc;

/// The kind of a program: its data and the identity of its nodes.
pub trait Marker: Clone + Eq + Hash + std::fmt::Debug {
    /// What a witness node holds.
    type Witness: Clone;
    /// What a disconnect node holds.
    type Disconnect: Disconnectable<Node<Self>> + Clone;
    /// The identity of a node for sharing.
    type SharingId: Hash + Clone + Eq + std::fmt::Debug;
}

/// A program node.
pub struct Node<N: Marker> {
    inner: Inner<Arc<Node<N>>, N::Disconnect, N::Witness>,
    id: Option<N::SharingId>,
}

impl<N: Marker> Node<N> {
    /// The node's combinator.
    pub fn inner(&self) -> &Inner<Arc<Node<N>>, N::Disconnect, N::Witness> {
        &self.inner
    }

    /// The node's identity.
    pub fn sharing_id(&self) -> Option<N::SharingId> {
        self.id.clone()
    }
}

/// The second child of a disconnect node.
pub trait Disconnectable<C> {
    /// The children, owned.
    fn disconnect_dag_arc(self, left: Arc<C>) -> Dag<Arc<C>>;
    /// The children, borrowed.
    fn disconnect_dag_ref<'s>(&'s self, left: &'s C) -> Dag<&'s C>;
}

/// The combinators.
pub enum Inner<C, X, W> {
    Iden,
    Unit,
    InjL(C),
    InjR(C),
    Take(C),
    Drop(C),
    Comp(C, C),
    Case(C, C),
    AssertL(C, ()),
    AssertR((), C),
    Pair(C, C),
    Disconnect(C, X),
    Witness(W),
    Fail(()),
    Jet(()),
    Word(()),
}
