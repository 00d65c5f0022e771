//! A talk about one image with whoever is asked: the image is sent once, held by all sides, and changed by patches. The
//! number of blocks that calls name is told when it changes.
//!
//! What the answers to other requests should be is up to the tests; this keeps the image as the sides have it.

use crate::bad_volumes::{apply, Patch};
use crate::disk::FLOPPY;
use crate::model::{DISK, IMAGE, PATCH};
use crate::sides::{Sides, Who};

/// Requests with the answers due.
pub struct Talk {
    sides: Sides,
    named: u32,
    held: Vec<u8>,
    about: String,
}

impl Talk {
    /// Nothing is held, and nothing asked; the floppy's number of blocks is named.
    pub fn new(who: Who) -> Talk {
        Talk { sides: Sides::new(who), named: FLOPPY, held: Vec::new(), about: "at first".into() }
    }

    /// The number of blocks that calls name now, 0 for none.
    pub fn named(&self) -> u32 {
        self.named
    }

    /// Lets calls name another number of blocks.
    pub fn name(&mut self, named: u32) {
        if named != self.named {
            self.named = named;
            self.ask(DISK, &named.to_be_bytes(), &format!("disk {named}"));
        }
    }

    /// The image that is held now.
    pub fn held(&self) -> &[u8] {
        &self.held
    }

    /// Says what the next requests are about.
    pub fn about(&mut self, about: impl Into<String>) {
        self.about = about.into();
    }

    /// What the next requests are about.
    pub fn subject(&self) -> &str {
        &self.about
    }

    /// Adds a request and the line that it is to be answered with.
    pub fn ask(&mut self, number: u32, body: &[u8], answer: &str) {
        self.sides.ask(&self.about, number, body, answer);
    }

    /// Sends an image.
    pub fn image(&mut self, image: &[u8]) {
        self.held = image.to_vec();
        self.ask(IMAGE, image, &format!("image {}", image.len()));
    }

    /// Changes the held image; answers with the patches that change it back.
    pub fn patch(&mut self, patches: &[Patch]) -> Vec<Patch> {
        let old = |(place, bytes): &Patch| (*place, self.held[*place..][..bytes.len()].to_vec());
        let undo = patches.iter().map(old).collect();
        apply(patches, &mut self.held);
        for (place, bytes) in patches {
            let body = [&(*place as u32).to_be_bytes(), &bytes[..]].concat();
            self.ask(PATCH, &body, "patched");
        }
        undo
    }

    /// Runs `probe` on all of it, if it is asked.
    pub fn run(self) {
        self.sides.run();
    }
}
