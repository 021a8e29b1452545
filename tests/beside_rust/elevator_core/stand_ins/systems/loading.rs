//! Stand-in for systems/loading.rs: a phase of the tick that is not compared.
