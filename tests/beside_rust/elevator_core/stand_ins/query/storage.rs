//! Stand-in for query/storage.rs: custom components, of which no world here has any.

use std::any::Any;
use std::collections::BTreeMap;

use slotmap::SecondaryMap;

use crate::entity::EntityId;

pub trait AnyExtMap: Send + Sync {
    fn as_any(&self) -> &dyn Any;
    fn as_any_mut(&mut self) -> &mut dyn Any;
    fn remove(&mut self, id: EntityId);
    fn serialize_entries(&self) -> BTreeMap<EntityId, String>;
    fn deserialize_entries(&mut self, entries: &BTreeMap<EntityId, String>);
}

impl<T: 'static + Send + Sync> AnyExtMap for SecondaryMap<EntityId, T> {
    fn as_any(&self) -> &dyn Any {
        self
    }

    fn as_any_mut(&mut self) -> &mut dyn Any {
        self
    }

    fn remove(&mut self, id: EntityId) {
        SecondaryMap::remove(self, id);
    }

    fn serialize_entries(&self) -> BTreeMap<EntityId, String> {
        BTreeMap::new()
    }

    fn deserialize_entries(&mut self, _: &BTreeMap<EntityId, String>) {}
}
