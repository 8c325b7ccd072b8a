//! Fiddlecomet seen from outside: an independent reading of document 01, inputs made and damaged,
//! the library called and compared, PostgreSQL asked the same.

pub mod bench;
pub mod cases;
pub mod compare;
pub mod examples;
pub mod library;
pub mod making;
pub mod postgres;
pub mod question;
pub mod reading;
