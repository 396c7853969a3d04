//! The trace of X1 to X9, printed from the model.

mod common;
use common::*;

#[test]
fn the_sample() {
    let fetch = "09 0500 00002D08011002 03";
    let input = format!(
        "10 0C000000280801120708053203 0A0153 01 00 \
         11 0D0000002B0801220608001202 08012801 02 02 03 {fetch} {fetch}"
    );
    let output = "n reason first rows mark stmts cursors owed\n\
                  1 0 0 0 O 1 0 0\n\
                  2 0 0 1 S 1 1 2\n\
                  3 0 1 2 D 1 1 0\n\
                  4 11 0 0 E 1 1 0\n";
    assert_eq!(trace(&unhex(&input)), output);
}

#[test]
fn a_record_cut_short() {
    let header = "n reason first rows mark stmts cursors owed\n";
    assert_eq!(trace(&[]), header);
    assert_eq!(trace(&unhex("09 0500")), format!("{header}cut\n"));
    assert_eq!(trace(&unhex("05 0100000006 05")), format!("{header}cut\n"));
    assert_eq!(trace(&unhex("05 0100000006 00")), format!("{header}1 0 0 0 O 0 0 0\n"));
}
