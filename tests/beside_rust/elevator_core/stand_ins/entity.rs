//! Stand-in for entity.rs: the key of every entity.

slotmap::new_key_type! {
    pub struct EntityId;
}
