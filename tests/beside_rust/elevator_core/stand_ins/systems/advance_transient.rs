//! Stand-in for systems/advance_transient.rs: a phase of the tick that is not compared.
