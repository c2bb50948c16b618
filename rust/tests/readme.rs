//! What README.md shows is what happens: the example in Rust, and each `$ tile …` with what it prints.
use std::path::{Path, PathBuf};
use std::process::Command;

fn repository() -> PathBuf {
    PathBuf::from(env!("CARGO_MANIFEST_DIR")).join("..")
}

fn readme() -> String {
    std::fs::read_to_string(repository().join("README.md")).expect("README.md")
}

/// The lines between the marks are README.md's.
fn example() -> Result<(), Box<dyn std::error::Error>> {
    // README begins
    let doc = std::fs::read("samples/mosaic.nbt")?;
    let table = match tikfazrul::read(&doc) {
        Ok(table) => table,
        Err(refusal) => return Err(format!("{refusal}\n{}", refusal.window(&doc).unwrap_or_default()).into()),
    };
    let root = table.root(&doc)?;
    println!("{:?} has {} entries", root.name(), root.len());
    for node in table.find(&doc, &"root/Tiles[3]/**/SceneId".parse()?)? {
        println!("{} is {:?}", node.path(), node.as_str());
    }
    // README ends
    Ok(())
}

#[test]
fn the_example_is_the_readmes_and_runs() {
    let source = include_str!("readme.rs");
    let lines = source.lines().skip_while(|line| line.trim() != "// README begins").skip(1);
    let lines = lines.take_while(|line| line.trim() != "// README ends").map(|line| line.strip_prefix("    ").unwrap_or(line));
    let text: Vec<&str> = lines.collect();
    assert!(text.len() > 5);
    assert!(readme().contains(&format!("```rust\n{}\n```", text.join("\n"))), "README.md has another example");
    std::env::set_current_dir(repository()).expect("the repository");
    example().expect("the example runs");
}

/// Each command of README.md that begins with `$ tile`, with what is shown below it.
fn shown() -> Vec<(String, String)> {
    let mut found: Vec<(String, String)> = Vec::new();
    let mut open = false;
    for line in readme().lines() {
        if let Some(command) = line.strip_prefix("$ tile ") {
            found.push((command.to_owned(), String::new()));
            open = true;
        } else if line.starts_with("```") {
            open = false;
        } else if let (true, Some((_, output))) = (open, found.last_mut()) {
            output.push_str(line);
            output.push('\n');
        }
    }
    found
}

#[test]
fn the_commands_print_what_is_shown() {
    let tile = Path::new(env!("CARGO_BIN_EXE_tile"));
    let shown = shown();
    assert!(shown.len() >= 3);
    for (command, wanted) in shown {
        let script = format!("exec {} {command}", tile.display());
        let output = Command::new("sh").arg("-c").arg(script).current_dir(repository()).output().expect("sh");
        assert_eq!(String::from_utf8_lossy(&output.stdout), wanted, "tile {command}");
    }
}
