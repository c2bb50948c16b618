//! What a user of the Rust crate would write by hand in place of two queries: walks over its nodes, which compare names as strings. They
//! check nothing of the table, since it was read.
use tikfazrul::Node;

fn is_named(node: &Node, name: &str) -> bool {
    node.name().as_deref() == Some(name)
}

/// `root/**/name`, from the root.
pub fn anywhere(node: &Node, name: &str, found: &mut Vec<u32>) {
    for child in node.children() {
        if is_named(&child, name) {
            found.push(child.record() as u32);
        }
        anywhere(&child, name, found);
    }
}

/// `root/Tiles/*/name`, from the root.
pub fn in_tiles(root: &Node, name: &str, found: &mut Vec<u32>) {
    for tiles in root.children().filter(|child| is_named(child, "Tiles")) {
        for tile in tiles.children() {
            found.extend(tile.children().filter(|child| is_named(child, name)).map(|child| child.record() as u32));
        }
    }
}

/// The same by the crate's own `get`, which looks no further than the first of a name: what was read has no second.
pub fn got_in_tiles(root: &Node, name: &str, found: &mut Vec<u32>) {
    let tiles = root.get("Tiles").into_iter().flat_map(|tiles| tiles.children());
    found.extend(tiles.filter_map(|tile| tile.get(name)).map(|node| node.record() as u32));
}
