//! Stand-in for systems/reposition.rs: a phase of the tick that is not compared.
