//! Stand-in for `log`: the lines are made and dropped.
#[macro_export]
macro_rules! debug { ($($t:tt)*) => { let _ = format!($($t)*); } }
#[macro_export]
macro_rules! info { ($($t:tt)*) => { let _ = format!($($t)*); } }
#[macro_export]
macro_rules! warn { ($($t:tt)*) => { let _ = format!($($t)*); } }
#[macro_export]
macro_rules! error { ($($t:tt)*) => { let _ = format!($($t)*); } }
