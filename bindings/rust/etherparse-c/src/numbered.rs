//! Kinds that the declared calls return as numbers.

/// Defines enums of kinds, each with the number of its declaration (`kind as u32`), and a conversion from a number to
/// its kind.
macro_rules! numbered {
    ($($(#[$about:meta])* pub enum $name:ident {
        $($(#[$meaning:meta])* $kind:ident = $number:ident,)*
    })*) => {$(
        $(#[$about])*
        #[derive(Clone, Copy, Debug, PartialEq, Eq, PartialOrd, Ord, Hash)]
        #[non_exhaustive]
        pub enum $name {
            $($(#[$meaning])* $kind = sys::$number as isize,)*
        }

        impl $name {
            #[inline]
            pub(crate) fn of(number: u32) -> Option<$name> {
                match number {
                    $(sys::$number => Some($name::$kind),)*
                    _ => None,
                }
            }
        }
    )*};
}

pub(crate) use numbered;
