//! What document 01 lists, as tools/mezburiko/tables.py prints it.
include!(concat!(env!("OUT_DIR"), "/tables.rs"));
