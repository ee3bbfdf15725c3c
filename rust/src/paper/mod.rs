//! The paper, written down once more: what document 01 says of the image, the detectors, the pins, the sheet, the table, the
//! engine and the translation, as plain functions on slices and values. Written from the paper alone.
//!
//! A program may use a part of it only, so what it leaves unused is no mistake.
#![allow(dead_code, unused_imports)]

pub mod detectors;
pub mod engine;
pub mod image;
pub mod normal;
pub mod numbers;
pub mod pins;
pub mod settings;
pub mod sheet;
pub mod table;
pub mod translation;
pub mod verdict;

pub use detectors::{engine_tick, tick, Bank, ChannelState, Detected};
pub use engine::{show_sheet, show_table, tick_sheet, tick_table, Exit, State, Ticked};
pub use image::{blank, read, write, Reading};
pub use normal::normal;
pub use pins::{pins, Pins};
pub use settings::{
    group_kind, settings_verdict, FaultType, Group, GroupKind, InputKind, Logic, Pull, Settings, Source,
};
pub use sheet::{sheet_verdict, step_at, Step};
pub use table::{cell_at, cell_verdict, table_verdict, Cell};
pub use translation::{translate, Translation};
pub use verdict::Verdict;
