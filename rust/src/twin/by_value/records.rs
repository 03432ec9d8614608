// Written by `twin_source` from crates/records/src/lib.rt.
// The records of a book: the head's fields and those of record k at their bytes, and a record as a step, a block or a link.
// Nothing is judged here: every call takes any bytes, ends, and has no `requires`. A missing byte reads as 0, and a
// record that the book ends within is none of the three. Assumes nothing.

mod bytes; // numbers in the bytes
mod layout; // where a book's bytes have what
mod records; // the fields of the head and of a record

pub use bytes::{is_nonzero, u32_at};
pub use layout::{
    BLOCK_KIND, HEAD_REST_OFFSET, HEAD_REST_SIZE, LAST_HOUR, LAST_SIDE, LINK_KIND, RECORD_SIZE,
    STEP_KIND,
};
pub use records::{
    block_quantity, day_hours, edition_of, first_block, first_link, first_step, has_link_rest,
    hour_byte, hour_count, kind_of, link_at, next_of, number_of, portfolio_of, record_at,
    record_count, side_byte, step_at,
};

#[derive(Clone, Copy)]
pub enum Side {
    Buy,
    Sell,
}

// The side that a byte names: 0 buy, 1 sell; another byte is refused before it is asked.
impl From<u8> for Side {

    fn from(byte: u8) -> Side {
        if byte == 0 { Side::Buy } else { Side::Sell }
    }
}

// An hourly step. Price in cents per MWh, quantity in tenths of a MW.
#[derive(Clone, Copy)]
pub struct Step {
    pub side: Side,
    pub number: u16,
    pub hour: u8,
    pub portfolio: u8,
    pub price: u32,
    pub quantity: u32,
}

// A block. Hour h has the weight 2 to the power h - 1 in `hours`; the quantity is that of each of them.
#[derive(Clone, Copy)]
pub struct Block {
    pub side: Side,
    pub number: u16,
    pub portfolio: u8,
    pub hours: u32,
    pub price: u32,
    pub quantity: u16,
}

// A link: the block numbered child may be taken only with the block numbered parent.
#[derive(Clone, Copy)]
pub struct Link {
    pub child: u16,
    pub parent: u16,
}

// A record as its kind says. `Other` stays a case of it, no Option around it: the causes of a refusal in specs/ are told by these four cases.
#[derive(Clone, Copy)]
pub enum Record {
    Step(Step),
    Block(Block),
    Link(Link),
    Other,
}
