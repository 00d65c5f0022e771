//! Images to audit and to look for paths on. Unless it is said, their blocks lie in no order.

use compare::disk::{claim_length, Disk};
use compare::rng::Rng;
use compare::volumes::{chain, mixed, nested, Filling, Order, Plan, Style, Volume};

/// An image, and its number of blocks, which calls name.
pub struct Image {
    pub blocks: u32,
    pub bytes: Vec<u8>,
}

impl Image {
    /// A claim area for it, filled with a byte.
    pub fn claim(&self, byte: u8) -> Vec<u8> {
        vec![byte; claim_length(self.blocks)]
    }
}

/// The volume of a plan.
pub fn laid_out(rng: &mut Rng, plan: &Plan, order: Order) -> Volume {
    Volume::new(rng, plan, Style { filling: Filling::Random, order })
}

pub fn image_of(volume: Volume) -> Image {
    Image { blocks: volume.disk.blocks, bytes: volume.image }
}

fn shuffled(rng: &mut Rng, plan: &Plan) -> Image {
    image_of(laid_out(rng, plan, Order::Shuffled))
}

/// Images of which so many blocks are in use, at least 2.
pub fn filled(disk: &Disk, used: u32, count: usize) -> Vec<Image> {
    let mut rng = Rng::new(1);
    let one = |_| {
        let plan = mixed(&mut rng, disk, used - 2);
        shuffled(&mut rng, &plan)
    };
    (0..count).map(one).collect()
}

/// An image with no free block.
pub fn full(disk: &Disk) -> Vec<Image> {
    filled(disk, disk.bitmap_span(), 1)
}

/// The volume of so many entries, all on one chain of the root.
pub fn chain_volume(disk: &Disk, length: u32) -> Volume {
    let mut rng = Rng::new(3);
    let plan = chain(&mut rng, disk, length);
    laid_out(&mut rng, &plan, Order::Shuffled)
}

/// Its image.
pub fn one_chain(disk: &Disk, length: u32) -> Vec<Image> {
    vec![image_of(chain_volume(disk, length))]
}

/// An image with so many directories, each in the one before.
pub fn one_in_the_other(disk: &Disk, depth: u32) -> Vec<Image> {
    let mut rng = Rng::new(6);
    let plan = nested(&mut rng, disk, depth);
    vec![shuffled(&mut rng, &plan)]
}
