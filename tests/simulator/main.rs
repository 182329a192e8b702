//! The simulator: plays the whole program, a server and its clients, in one deterministic world, from one seed.
//!
//! `simulator PROGRAM --seed 1 --runs 1000` plays a thousand seeds; options.rs has all words.

mod calls;
mod chance;
mod clock;
mod contents;
mod coroutine;
mod disk;
mod errno;
mod heap;
mod history;
mod image;
mod indices;
mod jobs;
mod judge;
mod ladder;
mod linear;
mod lines;
mod machine;
mod net;
mod options;
mod packets;
mod pages;
mod play;
mod process;
mod repeats;
mod report;
mod scenario;
mod script;
mod shorten;
mod svg;
mod system;
mod trial;
mod wrong;

use image::Image;
use options::{Options, HELP};
use std::process::ExitCode;

/// Loads the program; otherwise what is wrong with its file.
fn load(program: &str) -> Result<&'static Image, String> {
    let bytes = std::fs::read(program).map_err(|error| format!("can't read {program}: {error}"))?;
    Image::load(&bytes, &calls::import).map_err(|why| format!("can't load {program}: {why}"))
}

fn run(options: &Options) -> Result<bool, String> {
    if options.stride.is_none() && !options.is_close() {
        return jobs::play_all(options);
    }
    let image = load(&options.program)?;
    if options.stride.is_some() {
        jobs::play_some(image, options);
        return Ok(true);
    }
    report::look_closely(image, options)
}

fn main() -> ExitCode {
    let options = match Options::read(std::env::args().skip(1)) {
        Ok(options) if options.is_help => {
            print!("{HELP}");
            return ExitCode::SUCCESS;
        }
        Ok(options) if options.is_check => return ExitCode::SUCCESS,
        Ok(options) => options,
        Err(why) => {
            eprintln!("simulator: {why}\n\n{HELP}");
            return ExitCode::from(2);
        }
    };
    match run(&options) {
        Ok(true) => ExitCode::SUCCESS,
        Ok(false) => ExitCode::FAILURE,
        Err(why) => {
            eprintln!("simulator: {why}");
            ExitCode::from(2)
        }
    }
}
