//! The program auction-print against this package's sheets: books on its standard input, in
//! every manner that bytes arrive. Compiled with the feature `proved` only.
//!
//! The program is `../target/bin/auction_print`, which `./build` at the root of the repository
//! makes, or the one that the environment variable AUCTION_PRINT names. BOOKS raises the count
//! of random books (at least 3000).

mod printing;
mod sample_files;

use auction_listing::paper;
use printing::Program;

const AUCTION_PRINT: Program = Program {
    name: "auction_print",
    variable: "AUCTION_PRINT",
    command: "auction-print",
    ending: "sheet",
    listing: paper::sheet,
    of_result: paper::sheet_of,
};

printing::tests_of!(AUCTION_PRINT);
