//! What the library is measured against, its calls as straightforward Rust, written from document 01 on the bytes of the C interface; and the rows in
//! which the two are set side by side. Beside them the class of a state number, which the C interface does not show.

pub mod classes;
pub mod guests;
pub mod rows;
pub mod straightforward;
pub mod work;
