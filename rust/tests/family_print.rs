//! The program family-print against this package's family reports: books on its standard input, in
//! every manner that bytes arrive. Compiled with the feature `proved` only.
//!
//! The program is `../target/bin/family_print`, which `./build` at the root of the repository
//! makes, or the one that the environment variable FAMILY_PRINT names. BOOKS raises the count
//! of random books (at least 3000).

mod printing;
mod sample_files;

use auction_listing::paper;
use printing::Program;

const FAMILY_PRINT: Program = Program {
    name: "family_print",
    variable: "FAMILY_PRINT",
    command: "family-print",
    ending: "families",
    listing: paper::families,
    of_result: paper::families_of,
};

printing::tests_of!(FAMILY_PRINT);
