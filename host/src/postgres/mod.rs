//! A real PostgreSQL asked the same: a private server, and sheets as CREATE TABLE and CREATE POLICY.

pub mod server;
pub mod sql;
