//! A second, independent program for document 01's rules: a dispatch simulator
//! of diesel, solar and battery power stations. Written from the papers alone.

pub mod batch;
pub mod cells;
pub mod configuration;
pub mod dispatch;
pub mod fuel;
pub mod generator;
pub mod hex;
pub mod judge;
pub mod limits;
pub mod lines;
pub mod refusal;
pub mod row;
pub mod run;
pub mod run_record;
pub mod samples;
pub mod second;
pub mod setpoint;
pub mod share;
pub mod sizing;
pub mod station;
pub mod station_file;
pub mod text;
