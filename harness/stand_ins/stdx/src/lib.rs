//! Stand-in for stdx.

/// One conversion into an enum for each variant that is named like its content.
#[macro_export]
macro_rules! impl_from {
    ($($variant:ident),* for $enum:ident) => {
        $(
            impl From<$variant> for $enum {
                fn from(it: $variant) -> $enum {
                    $enum::$variant(it)
                }
            }
        )*
    };
}

/// The published macro logs where the condition fails, and goes on; this one goes on.
#[macro_export]
macro_rules! always {
    ($condition:expr $(, $rest:tt)*) => {
        let _ = $condition;
    };
}
