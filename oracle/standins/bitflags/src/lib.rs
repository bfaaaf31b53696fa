//! Stands in for the crate bitflags: named bits of one number, as asmkit's globals.rs declares them.

#[macro_export]
macro_rules! bitflags {
    ($(#[$outer:meta])* $vis:vis struct $name:ident: $bits:ty {
        $($(#[$inner:meta])* const $flag:ident = $value:expr;)*
    }) => {
        $(#[$outer])*
        $vis struct $name($bits);

        impl $name {
            $($(#[$inner])* pub const $flag: Self = Self($value);)*

            pub const fn bits(self) -> $bits {
                self.0
            }
        }
    };
}
