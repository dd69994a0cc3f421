//! Messages are type-checked and dropped: no line of a replay is a message.

#[macro_export]
macro_rules! dropped {
    ($($message:tt)*) => {
        if false {
            let _ = ::std::format_args!($($message)*);
        }
    };
}

pub use dropped as debug;
pub use dropped as error;
pub use dropped as info;
pub use dropped as warn;
