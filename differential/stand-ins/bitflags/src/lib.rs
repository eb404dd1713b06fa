//! Stands for the crate `bitflags`, version 2: the macro, with the functions that the published files call.
//!
//! Assumes what the crate documents: `from_bits_retain`, `remove` and `toggle` keep the bits that have no name;
//! `contains` asks for all bits of its argument; `const _ = !0` names the other bits and changes nothing here.

#[macro_export]
macro_rules! bitflags {
    (
        $(#[$outer:meta])*
        $vis:vis struct $Name:ident: $Bits:ty {
            $($(#[$inner:meta])* const $Flag:tt = $value:expr;)*
        }
    ) => {
        $(#[$outer])*
        $vis struct $Name($Bits);

        #[allow(dead_code)]
        impl $Name {
            $($crate::flag! { $(#[$inner])* $Flag = $value })*

            #[inline]
            pub const fn from_bits_retain(bits: $Bits) -> Self {
                Self(bits)
            }

            #[inline]
            pub const fn bits(&self) -> $Bits {
                self.0
            }

            #[inline]
            pub const fn contains(&self, other: Self) -> bool {
                self.0 & other.0 == other.0
            }

            #[inline]
            pub fn remove(&mut self, other: Self) {
                self.0 &= !other.0;
            }

            #[inline]
            pub fn toggle(&mut self, other: Self) {
                self.0 ^= other.0;
            }
        }
    };
}

/// One flag of `bitflags!`; the name `_` makes none.
#[doc(hidden)]
#[macro_export]
macro_rules! flag {
    ($(#[$inner:meta])* _ = $value:expr) => {};
    ($(#[$inner:meta])* $Flag:ident = $value:expr) => {
        $(#[$inner])*
        pub const $Flag: Self = Self($value);
    };
}
