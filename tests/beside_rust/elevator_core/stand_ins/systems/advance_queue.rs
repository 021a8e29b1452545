//! Stand-in for systems/advance_queue.rs: a phase of the tick that is not compared.
