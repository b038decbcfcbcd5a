//! The tool as people meet it: run as a program, on files.

#[path = "../../examples/photograph/card.rs"]
mod card;
mod failures;
mod files;
mod folder;
mod imagemagick;
mod jobs;
#[path = "../../examples/photograph/letters.rs"]
mod letters;
#[allow(dead_code)]
#[path = "../../examples/photograph/scene.rs"]
mod scene;
