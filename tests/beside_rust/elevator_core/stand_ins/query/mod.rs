//! Stand-in for query: World's query builders, which nothing here uses, and its extension storage.

use std::marker::PhantomData;

use crate::world::World;

pub mod storage;

pub trait WorldQuery {}

pub struct QueryBuilder<'w, Q>(PhantomData<(&'w World, Q)>);

impl<'w, Q> QueryBuilder<'w, Q> {
    pub const fn new(_: &'w World) -> Self {
        Self(PhantomData)
    }
}

pub struct ExtQueryMut<'w, T>(PhantomData<(&'w mut World, T)>);

impl<'w, T> ExtQueryMut<'w, T> {
    pub fn new(_: &'w mut World) -> Self {
        Self(PhantomData)
    }
}
