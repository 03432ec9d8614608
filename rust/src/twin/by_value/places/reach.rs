// Written by `twin_source` from crates/places/src/reach.rt.
// The places that a branch can still come to: what its undecided blocks must and may add, and the places of these at which the hours clear.

use crate::twin::by_value::places::layout::{AGAINST, BLOCK_ROWS, FIRST, GAIN, HOURS, LAST, SIDE, TURN};

// Whether the block k places after the decided ones is out of the branch: no lawful completion that loses less than the limit takes it.
pub fn is_out(out: u32, k: usize) -> bool
{
    (out >> (k as u32)) % 2 == 1
}

// Whether an undecided block moves the places of its hours on for certain, and whether it may.
#[derive(Clone, Copy)]
pub struct Moves {
    pub must: bool,
    pub may: bool,
}

fn moves_of(blocks: &[u32], i: usize, out: bool, loss: u64, limit: u64) -> Moves
{
    let buys = blocks[SIDE + i] == 0;
    let left_out = out | (limit <= loss + u64::from(blocks[AGAINST + i]));
    let taken = !out & (limit <= loss + u64::from(blocks[GAIN + i]));
    Moves {
        must: (left_out & buys) | (taken & !buys),
        may: !left_out & !taken,
    }
}

// The least place of each hour, and what its undecided blocks are free to add.
#[derive(Clone, Copy)]
pub struct Rest {
    pub least: [u32; HOURS],
    pub free: [u32; HOURS],
}

// The least places and what is free with block i more, where it must move them on, or may. One walk for both, since it is the search's most frequent.
fn with_moves(rest: Rest, moves: Moves, blocks: &[u32], i: usize) -> Rest
{
    let must = u32::from(moves.must);
    let may = u32::from(moves.may);
    let row = BLOCK_ROWS + HOURS * i;
    let mut more = rest.least;
    let mut freer = rest.free;
    for h in 0..HOURS {
        let traded = blocks[row + h];
        more[h] += must * traded;
        freer[h] += may * traded;
    }
    Rest {
        least: more,
        free: freer,
    }
}

// The undecided blocks, from number at on, added to the places.
fn rest_of(
    blocks: &[u32],
    count: usize,
    at: usize,
    out: u32,
    loss: u64,
    limit: u64,
    places: [u32; HOURS],
) -> Rest
{
    let mut rest = Rest {
        least: places,
        free: [0; HOURS],
    };
    for i in (at..count).rev() {
        let moves = moves_of(blocks, i, is_out(out, i - at), loss, limit);
        rest = with_moves(rest, moves, blocks, i);
    }
    rest
}

// The places that a branch can still reach and at which its hours clear: for each hour the first and the last.
#[derive(Clone, Copy)]
pub struct Reach {
    pub from: [u32; HOURS],
    pub to: [u32; HOURS],
}

// What hours reach from their least places with so much free to add; none where an hour has no such place: it can no longer balance.
fn reach_of(first: &[u32], last: &[u32], rest: Rest) -> Option<Reach>
{
    let least = rest.least;
    let free = rest.free;
    let mut balances = true;
    let mut from = [0; HOURS];
    let mut to = [0; HOURS];
    for h in 0..HOURS {
        let lowest = least[h].max(first[h]);
        let highest = (least[h] + free[h]).min(last[h]);
        from[h] = lowest;
        to[h] = highest;
        // A flag, and no return from here: the loop has no branch.
        balances = balances & (lowest <= highest);
    }
    if balances {
        Some(Reach { from, to })
    } else {
        None
    }
}

// What a branch at these places reaches with its undecided blocks, from number at on; none where an hour can no longer balance.
pub fn reach_at(
    hours: &[u32],
    blocks: &[u32],
    count: usize,
    at: usize,
    out: u32,
    loss: u64,
    limit: u64,
    places: [u32; HOURS],
) -> Option<Reach>
{
    let rest = rest_of(blocks, count, at, out, loss, limit, places);
    reach_of(&hours[FIRST..LAST], &hours[LAST..TURN], rest)
}
