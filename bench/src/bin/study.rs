//! The papers' comparison: prints its tables, or writes them into a document and its picture beside it.
//!
//!     study [--write DOCUMENT PICTURE]

use bench::document::rewrite;
use bench::study::report::Study;
use std::path::Path;
use std::{env, fs};

fn main() {
    let arguments: Vec<String> = env::args().skip(1).collect();
    let study = Study::default();
    let film = study.film_table();
    let (counts, details, claims) = study.tables();
    println!(
        "{film}\n{}\n\n{counts}\n{details}\n{claims}",
        Study::setting()
    );
    if let [write, document, picture] = arguments.as_slice() {
        assert_eq!(write, "--write");
        fs::write(picture, study.picture()).expect("the picture is written");
        rewrite(
            Path::new(document),
            &[
                ("film", film),
                ("streams", counts),
                ("details", details),
                ("claims", claims),
            ],
        );
    }
}
