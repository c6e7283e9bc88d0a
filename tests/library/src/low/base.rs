//! Refusals' texts, commands, walks, homes, and tables of files and programs.

mod commands;
mod homes;
mod made;
mod paths;
mod tables;
mod texts;
mod walks;
