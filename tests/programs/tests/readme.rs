//! The worked example of README: each command of a `text` block, run from the repository's folder, prints
//! the lines that follow it.

use programs::root;
use std::process::Command;

/// A command and the lines that it is said to print.
type Step = (String, String);

/// The blocks that show commands, each with its steps.
fn blocks(readme: &str) -> Vec<Vec<Step>> {
    let texts = readme.split("```text\n").skip(1);
    let texts = texts.filter_map(|rest| rest.split_once("```"));
    texts.map(|(text, _)| steps(text)).collect()
}

fn steps(text: &str) -> Vec<Step> {
    let mut steps: Vec<Step> = Vec::new();
    for line in text.lines() {
        match line.strip_prefix("$ ") {
            Some(command) => steps.push((command.to_string(), String::new())),
            None => {
                let step = steps.last_mut().expect("a command before its output");
                step.1 += &format!("{line}\n");
            }
        }
    }
    steps
}

/// Marks the end of a command's output, and ends the shell where the command failed or refused a text; a
/// day that is not all quiet is neither. The next command finds the status as it was.
const MARK: &str = "mark() { local status=$?; printf '\\0'; \
                    case $status in 0 | 3) return $status ;; *) exit 2 ;; esac; }\n";

/// What each command prints, all of them in one shell.
fn printed(steps: &[Step]) -> Vec<String> {
    let commands = steps
        .iter()
        .map(|(command, _)| format!("{command}\nmark\n"));
    let script = format!("{MARK}{}exit 0\n", commands.collect::<String>());
    let shell = Command::new("bash")
        .args(["-uc", &script])
        .current_dir(root())
        .output();
    let shell = shell.expect("a shell");
    assert!(shell.status.success(), "a command failed");
    let text = String::from_utf8(shell.stdout).expect("a text");
    let mut parts: Vec<String> = text.split('\0').map(str::to_string).collect();
    assert_eq!(parts.pop().as_deref(), Some(""));
    parts
}

#[test]
fn the_worked_example_prints_what_it_says() {
    let readme = std::fs::read_to_string(root().join("README.md")).expect("README");
    let blocks = blocks(&readme);
    assert_eq!(blocks.iter().map(Vec::len).sum::<usize>(), 8, "commands");
    for block in blocks {
        let said: Vec<String> = block.iter().map(|(_, output)| output.clone()).collect();
        assert_eq!(printed(&block), said);
    }
}
