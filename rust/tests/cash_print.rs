//! The program cash-print against this package's cash sheets: books on its standard input, in
//! every manner that bytes arrive. Compiled with the feature `proved` only.
//!
//! The program is `../target/bin/cash_print`, which `./build` at the root of the repository
//! makes, or the one that the environment variable CASH_PRINT names. BOOKS raises the count
//! of random books (at least 3000).

mod printing;
mod sample_files;

use auction_listing::paper;
use printing::Program;

const CASH_PRINT: Program = Program {
    name: "cash_print",
    variable: "CASH_PRINT",
    command: "cash-print",
    ending: "cash",
    listing: paper::cash,
    of_result: paper::cash_of,
};

printing::tests_of!(CASH_PRINT);
