//! Stand-in for components/units.rs: numbers with a unit, taken as they come.

use std::ops::SubAssign;

use serde::{Deserialize, Serialize};

macro_rules! unit {
    ($name:ident) => {
        #[derive(Debug, Clone, Copy, PartialEq, Serialize, Deserialize)]
        pub struct $name(pub(crate) f64);

        impl $name {
            pub const fn value(self) -> f64 {
                self.0
            }
        }
    };
}

unit!(Speed);
unit!(Accel);
unit!(Weight);

impl Weight {
    pub const ZERO: Self = Self(0.0);
}

impl SubAssign for Weight {
    fn sub_assign(&mut self, other: Self) {
        self.0 -= other.0;
    }
}
