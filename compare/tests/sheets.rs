//! The sheets of the repository: both sides print the page that stands beside each.

use compare::proved::{self, PAGE_BYTES};
use std::fs;
use std::path::{Path, PathBuf};

fn folder() -> PathBuf {
    Path::new(env!("CARGO_MANIFEST_DIR")).join("../sheets")
}

/// The names of the files that end so, in order.
fn names(ending: &str) -> Vec<String> {
    let files = fs::read_dir(folder()).expect("the repository has a folder sheets");
    let names = files.map(|file| file.unwrap().file_name().into_string().unwrap());
    let mut names: Vec<_> = names.filter_map(|name| name.strip_suffix(ending).map(str::to_string)).collect();
    names.sort();
    names
}

fn bytes(name: &str, ending: &str) -> Vec<u8> {
    fs::read(folder().join(format!("{name}{ending}"))).unwrap()
}

#[test]
fn both_sides_print_the_page_beside_each_sheet() {
    for name in names(".sheet") {
        let sheet = bytes(&name, ".sheet");
        let page = bytes(&name, ".page");
        let mut ours = Vec::new();
        compare::print(&sheet, &mut ours);
        assert_eq!(ours.escape_ascii().to_string(), page.escape_ascii().to_string(), "{name}: compare");
        let mut buffer = vec![0; PAGE_BYTES];
        let theirs = proved::print(&sheet, &mut buffer).expect("the buffer suffices");
        assert_eq!(theirs.escape_ascii().to_string(), page.escape_ascii().to_string(), "{name}: proved");
    }
}

#[test]
fn every_sheet_has_a_page_and_an_item_of_the_list() {
    let sheets = names(".sheet");
    assert!(sheets.len() >= 12);
    assert_eq!(sheets, names(".page"));
    let list = fs::read_to_string(folder().join("README.md")).unwrap();
    let mut items: Vec<_> = list.lines().filter_map(|line| line.strip_prefix("- `")?.split('`').next()).collect();
    items.sort_unstable();
    assert_eq!(items, sheets);
}

#[test]
fn the_first_sheet_and_its_page_are_those_of_document_01() {
    assert_eq!(bytes("first", ".sheet"), b"4\n11\n12\n13\n14\n1\n0 2 R\n4\n1\n1\n-\n0\n");
    let page = "5\n0 13 11 c\n1 13 13 b\n2 11 13 c\n2 12 13 c\n2 14 13 c\n\
                4\n11 3 1 in\n12 3 1 in\n13 2 1 out\n14 3 1 in\n\
                2\nbus agrees\nfaults within\n";
    assert_eq!(bytes("first", ".page"), page.as_bytes());
}
