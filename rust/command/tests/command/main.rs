//! The built command, run as a process. What it writes to standard output and
//! to standard error is compared whole, with its exit status.

mod drawn;
mod folder;
mod json;
mod layers;
mod run;
mod said;
mod sheets;
mod words;

mod check;
mod counts;
mod draw;
mod files;
mod judge;
mod judged;
mod launcher;
mod names;
mod output;
mod owl;
mod programs;
mod progress;
mod refusals;
mod show;
mod shown;
mod strike;
mod svg;
mod texts;
mod usage;
