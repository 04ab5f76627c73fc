//! Stand-in: numbers that exclude their largest value, and the same with "none" in its place.

use serde::{Deserialize, Serialize};

macro_rules! nonmax {
    ($name:ident, $option:ident, $number:ty) => {
        #[derive(Clone, Copy, Debug, PartialEq, Eq, PartialOrd, Ord, Serialize, Deserialize)]
        pub struct $name($number);

        #[derive(Clone, Copy, Debug, PartialEq, Eq, Serialize, Deserialize)]
        pub struct $option(Option<$name>);

        impl $name {
            pub const fn new(value: $number) -> Option<Self> {
                if value == <$number>::MAX {
                    None
                } else {
                    Some(Self(value))
                }
            }
            pub const fn get(self) -> $number {
                self.0
            }
            pub const fn option(self) -> $option {
                $option(Some(self))
            }
        }

        impl $option {
            pub const NONE: Self = Self(None);
            pub const fn option(self) -> Option<$name> {
                self.0
            }
            pub const fn is_none(&self) -> bool {
                self.0.is_none()
            }
            pub const fn is_some(&self) -> bool {
                self.0.is_some()
            }
            pub fn unwrap(self) -> $name {
                self.0.unwrap()
            }
        }

        impl From<Option<$name>> for $option {
            fn from(value: Option<$name>) -> Self {
                Self(value)
            }
        }
    };
}

nonmax!(NonMaxU8, OptionNonMaxU8, u8);
nonmax!(NonMaxU16, OptionNonMaxU16, u16);
nonmax!(NonMaxU32, OptionNonMaxU32, u32);
