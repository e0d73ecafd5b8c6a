//! Views of headers: the bytes of a header, and the fields that the library read from them.

use crate::sys;
use core::hash::{Hash, Hasher};

/// Bytes of a header, and its fields as the library's numbers.
#[derive(Clone, Copy)]
pub(crate) struct View<'a, F> {
    /// Bytes of the packet, in which the fields have places.
    pub(crate) packet: &'a [u8],
    /// Bytes of the header, and then the payload of a transport header.
    pub(crate) slice: &'a [u8],
    /// Length of the header in bytes.
    pub(crate) header_len: usize,
    pub(crate) fields: F,
}

impl<'a, F> View<'a, F> {
    pub(crate) fn header(&self) -> &'a [u8] {
        &self.slice[..self.header_len]
    }

    pub(crate) fn payload(&self) -> &'a [u8] {
        &self.slice[self.header_len..]
    }

    /// Returns the bytes at a place in the packet.
    pub(crate) fn at(&self, place: sys::Place) -> &'a [u8] {
        &self.packet[place.offset..place.offset + place.len]
    }
}

impl<F> PartialEq for View<'_, F> {
    fn eq(&self, other: &Self) -> bool {
        (self.slice, self.header_len) == (other.slice, other.header_len)
    }
}

impl<F> Eq for View<'_, F> {}

impl<F> Hash for View<'_, F> {
    fn hash<H: Hasher>(&self, state: &mut H) {
        (self.slice, self.header_len).hash(state);
    }
}

/// Defines the view of a header with its accessors, and the struct of its owned fields.
///
/// Each accessor and each field is a line `name: type = value`. The accessors in the braces of the view are not fields;
/// the fields in the braces of the owned struct are accessors of the view too, but for those after `and`.
macro_rules! header {
    (
        $(#[$about:meta])*
        pub struct $view:ident($self:ident: $fields:ident) {
            $($(#[$accessor_about:meta])* $accessor:ident: $accessor_type:ty = $accessor_value:expr,)*
        }
        $(#[$owned_about:meta])*
        pub struct $owned:ident $(<$life:lifetime>)? {
            $($(#[$field_about:meta])* $field:ident: $type:ty = $value:expr,)*
        } $(and {$($(#[$other_about:meta])* $other:ident: $other_type:ty = $other_value:expr,)*})?
        debug |$f:ident| $debug:expr;
    ) => {
        $(#[$about])*
        #[derive(Clone, Copy, PartialEq, Eq, Hash)]
        pub struct $view<'a>(pub(crate) View<'a, sys::$fields>);

        impl<'a> $view<'a> {
            /// All bytes: of the header or tag, of the ARP packet, or of the transport header and its payload.
            #[must_use]
            #[inline]
            pub fn slice(&$self) -> &'a [u8] {
                $self.0.slice
            }

            $(
                $(#[$accessor_about])*
                #[must_use]
                #[inline]
                pub fn $accessor(&$self) -> $accessor_type {
                    $accessor_value
                }
            )*
            $(
                $(#[$field_about])*
                #[must_use]
                #[inline]
                pub fn $field(&$self) -> $type {
                    $value
                }
            )*

            /// Returns the fields as owned values.
            #[must_use]
            pub fn to_header(&$self) -> $owned $(<$life>)? {
                $owned { $($field: $value,)* $($($other: $other_value,)*)? }
            }
        }

        impl fmt::Debug for $view<'_> {
            fn fmt(&$self, $f: &mut fmt::Formatter<'_>) -> fmt::Result {
                $debug
            }
        }

        $(#[$owned_about])*
        #[derive(Clone, Copy, Debug, PartialEq, Eq, Hash)]
        pub struct $owned $(<$life>)? {
            $($(#[$field_about])* pub $field: $type,)*
            $($($(#[$other_about])* pub $other: $other_type,)*)?
        }
    };
}

/// Defines a layer, an enum of the views of its headers, and the enum of their owned fields.
macro_rules! layer {
    (
        $(#[$about:meta])*
        pub enum $layer:ident {
            $($(#[$meaning:meta])* $kind:ident($view:ident, $owned:ident),)*
        }
        $(#[$headers_about:meta])*
        pub enum $headers:ident;
    ) => {
        $(#[$about])*
        #[derive(Clone, Copy, Debug, PartialEq, Eq, Hash)]
        #[non_exhaustive]
        pub enum $layer<'a> {
            $($(#[$meaning])* $kind($view<'a>),)*
        }

        impl<'a> $layer<'a> {
            /// Bytes of the header.
            #[must_use]
            #[inline]
            pub fn header_slice(&self) -> &'a [u8] {
                match self {
                    $($layer::$kind(header) => header.0.header(),)*
                }
            }

            /// Returns the fields of the header as owned values.
            #[must_use]
            #[inline]
            pub fn to_header(&self) -> $headers {
                match self {
                    $($layer::$kind(header) => $headers::$kind(header.to_header()),)*
                }
            }
        }

        $(#[$headers_about])*
        #[derive(Clone, Copy, Debug, PartialEq, Eq, Hash)]
        #[non_exhaustive]
        pub enum $headers {
            $($(#[$meaning])* $kind($owned),)*
        }
    };
}

pub(crate) use {header, layer};
