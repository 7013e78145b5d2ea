//! What programs do wrong that suites are to catch.

/// A type of slips, and all of them.
macro_rules! slips {
    ($($(#[$what:meta])* $slip:ident,)*) => {
        /// What a program does wrong.
        #[derive(Clone, Copy, Debug, PartialEq, Eq)]
        pub enum Slip {
            $($(#[$what])* $slip,)*
        }

        impl Slip {
            pub const ALL: &[Slip] = &[$(Slip::$slip,)*];
        }
    };
}

pub(crate) use slips;
