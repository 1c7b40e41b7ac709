//! Archives of the bank recorder read, shown and converted, and back-casts for them. The proved library decides every figure.

#![forbid(unsafe_code)]

pub mod amounts;
pub mod archive;
pub mod arguments;
pub mod calendar;
pub mod cli;
pub mod command;
pub mod curve;
pub mod decimal;
pub mod diagnosis;
pub mod echo;
pub mod entry;
pub mod failure;
pub mod files;
pub mod form;
pub mod json;
pub mod letters;
pub mod lines;
pub mod measuring;
pub mod movements;
pub mod named_day;
pub mod pages;
pub mod partners;
pub mod readings;
pub mod replay;
pub mod report;
pub mod rules;
pub mod shown;
pub mod statement;
pub mod text;
pub mod words;
pub mod year_sheet;
