//! Numbers by name: [`Class`] and [`Format`], and how they and the refusals are made.

/// Makes an enum of the names of numbers, each with its words. It stays open: a number with no name is `Other`, which keeps it. Only a
/// number makes an `Other`, so that each value has a number of its own and each number a value: both conversions lose nothing.
macro_rules! numbered {
    ($(#[$about:meta])* $name:ident($number:ty), $kind:literal: $($value:literal $member:ident $words:literal)*) => {
        $(#[$about])*
        #[derive(Clone, Copy, Debug, PartialEq, Eq, Hash)]
        #[non_exhaustive]
        pub enum $name {
            $(
                #[doc = concat!($value, ": ", $words)]
                $member,
            )*
            /// A number with no name here; a later version may name it.
            #[non_exhaustive]
            Other {
                /// the number
                number: $number,
            },
        }

        impl $name {
            /// Those with a name, by number.
            pub const NAMED: &'static [$name] = &[$($name::$member),*];

            /// The number, as the C functions have it.
            #[inline]
            pub const fn number(self) -> $number {
                match self {
                    $($name::$member => $value,)*
                    $name::Other { number } => number,
                }
            }

            #[inline]
            const fn of_number(number: $number) -> $name {
                match number {
                    $($value => $name::$member,)*
                    _ => $name::Other { number },
                }
            }
        }

        impl From<$name> for $number {
            #[inline]
            fn from(name: $name) -> $number {
                name.number()
            }
        }

        impl std::fmt::Display for $name {
            fn fmt(&self, f: &mut std::fmt::Formatter<'_>) -> std::fmt::Result {
                match self {
                    $($name::$member => write!(f, $words),)*
                    $name::Other { number } => write!(f, concat!($kind, " {}, which has no name here"), number),
                }
            }
        }
    };
}
pub(crate) use numbered;

numbered! {
    /// What a frame is.
    Class(u32), "frame class":
    0 NoData "no data"
    1 Sound "sound"
    2 Sid "SID (comfort noise)"
    5 DamagedSound "damaged sound"
    6 DamagedSid "damaged SID (comfort noise)"
}

impl From<u32> for Class {
    #[inline]
    fn from(number: u32) -> Class {
        Class::of_number(number)
    }
}

numbered! {
    /// How the payloads are laid out. A format that the library does not know is refused with [`Refusal::SettingsOutOfRange`].
    ///
    /// [`Refusal::SettingsOutOfRange`]: crate::Refusal::SettingsOutOfRange
    Format(u8), "payload format":
    1 G719Basic "G.719 basic"
    2 G719Interleaved "G.719 interleaved"
    3 GsmHr "GSM-HR"
    4 Amr "AMR"
    5 AmrWb "AMR-WB"
}

impl From<u8> for Format {
    #[inline]
    fn from(number: u8) -> Format {
        Format::of_number(number)
    }
}
