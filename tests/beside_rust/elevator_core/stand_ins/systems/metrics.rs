//! Stand-in for systems/metrics.rs: a phase of the tick that is not compared.
