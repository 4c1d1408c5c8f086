//! docs/EVIDENCE.md lists the groups in their order.

use answers::groups;
use answers::page::Item;
use answers::stored::read;

const EVIDENCE: &str = concat!(env!("CARGO_MANIFEST_DIR"), "/../../docs/EVIDENCE.md");

#[test]
fn the_page_lists_every_group() {
    let page = read(EVIDENCE).unwrap();
    let listed = page
        .lines()
        .skip_while(|line| *line != "| group | what it holds |");
    let rows = listed.skip(2).take_while(|line| line.starts_with('|'));
    let named: Vec<&str> = rows.filter_map(|row| row.split('`').nth(1)).collect();
    let all = groups::all();
    let due = all.items.iter().filter_map(|item| match item {
        Item::Group(name, _) => Some(*name),
        _ => None,
    });
    assert_eq!(named, due.collect::<Vec<_>>());
}
