//! Cases that are gone through one by one, each written once.

macro_rules! listed {
    ($(#[$about:meta])* $name:ident { $($(#[$of:meta])* $case:ident),+ $(,)? }) => {
        $(#[$about])*
        #[derive(Clone, Copy, Debug, PartialEq, Eq)]
        pub enum $name {
            $($(#[$of])* $case),+
        }

        impl $name {
            pub const ALL: &'static [$name] = &[$($name::$case),+];
        }
    };
}

pub(crate) use listed;
