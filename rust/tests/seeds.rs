//! The books of a seed stay as they are: a failing comparison names its book by the
//! seed, and the numbers of the benchmark are those of its books.

use auction_listing::books::{
    edge_books, pricing_case, small_book, small_book_on, tiny_book, DAYS, FAMILIES, WORST_FAMILIES,
};
use auction_listing::paper::{clear, result_length};

/// A sum of bytes (FNV-1a) in which their order counts.
struct Sum(u64);

impl Sum {
    fn of(books: impl Iterator<Item = Vec<u8>>) -> u64 {
        let mut sum = Sum(0xcbf2_9ce4_8422_2325);
        books.for_each(|book| sum.add(&book));
        sum.0
    }

    fn add(&mut self, bytes: &[u8]) {
        for &byte in bytes {
            self.0 = (self.0 ^ u64::from(byte)).wrapping_mul(0x0100_0000_01b3);
        }
    }
}

/// A case with its set and its hour as bytes behind the book.
fn case_bytes(seed: u64) -> Vec<u8> {
    let (book, set, hour) = pricing_case(seed);
    [book, set.to_be_bytes().to_vec(), hour.to_be_bytes().to_vec()].concat()
}

#[test]
fn the_random_books_of_edition_1_are_those_of_before() {
    assert_eq!(Sum::of((0..5_000).map(small_book)), 0xb3b4_81ca_fd9d_6d0d);
    assert_eq!(Sum::of((0..5_000).map(tiny_book)), 0x37f6_73fe_8ef3_c0c6);
    assert_eq!(Sum::of((0..5_000).map(case_bytes)), 0xd4d9_941a_3dd5_316f);
    assert_eq!(Sum::of(edge_books().into_iter()), 0x88dc_04c6_175a_2efb);
}

#[test]
fn the_families_of_edition_1_are_those_of_before() {
    let sums = [
        ("full days", 0x867f_2366_8d87_e926),
        ("full days, odd hours", 0x59b7_4e1c_b864_690d),
        ("identical blocks", 0x86d7_9bc7_0dda_82ba),
        ("thin days", 0xb6d0_164c_8b03_c28f),
        ("blocks only", 0x5503_cdd3_a614_0eab),
        ("ties", 0xc3bd_126a_256e_0f29),
        ("cliffs", 0x21dd_f18a_5e28_7b0b),
    ];
    for (name, sum) in sums {
        let family = FAMILIES.iter().find(|family| family.name == name).expect(name);
        let books = (0..20).map(|seed| (family.book)(seed, family.usual_blocks));
        assert_eq!(Sum::of(books), sum, "{name}");
    }
}

#[test]
fn the_worst_families_are_those_of_before() {
    let of_all = |seed, blocks| WORST_FAMILIES.iter().map(move |it| (it.book)(seed, blocks));
    let books = |blocks| (0..20).flat_map(move |seed| of_all(seed, blocks));
    assert_eq!(Sum::of(books(24)), 0x9d32_7595_dfb8_db56);
    assert_eq!(Sum::of(books(32)), 0xfe26_d811_4924_6963);
}

/// A book of edition 1, 2 or 3 with its result behind it.
fn book_and_result(seed: u64) -> Vec<u8> {
    let (day, edition) = (DAYS[seed as usize % 3], 1 + seed as u32 / 3 % 3);
    let book = small_book_on(day, edition, seed);
    let result = clear(&book, result_length(book.len() / 16)).expect("cleared");
    [book, result].concat()
}

/// What is published of editions 1 to 3 is what was published before there was another.
#[test]
fn the_results_of_editions_1_to_3_are_those_of_before() {
    assert_eq!(Sum::of((0..5_000).map(book_and_result)), 0xe70a_59f1_9e1c_d6b3);
}
