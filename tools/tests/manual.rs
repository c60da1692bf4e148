//! The page for `man`, the completion for bash, and the network of README.md.

mod running;

use running::{expect, file, wegbaro};
use std::process::Command;
use wegbaro_tests::build::printed;
use wegbaro_tools::subcommands::{OPTIONS, SUBCOMMANDS};

/// The page without what tells `man` how to set it.
fn page() -> String {
    let page = wegbaro(&["--man"], b"");
    let text = page.text().replace("\\-", "-").replace("\\(aq", "'").replace("\\(ga", "`");
    text.lines().filter(|line| !line.starts_with('.')).map(|line| format!("{line}\n")).collect()
}

/// Each paragraph of the help is a section of the page.
#[test]
fn the_page_says_what_the_help_says() {
    let help = wegbaro(&["--help"], b"");
    let help = help.text().replace("wegbaro: judges", "wegbaro - judges").replace("\n\n", "\n");
    assert_eq!(page(), help);
    let page = wegbaro(&["--man"], b"");
    let sections = page.text().lines().filter_map(|line| line.strip_prefix(".SH "));
    let sections: Vec<&str> = sections.collect();
    assert_eq!(sections, ["NAME", "SYNOPSIS", "OPERANDS", "OPTIONS", "EXIT STATUS", "SEE ALSO"]);
    let title = format!(".TH WEGBARO 1 \"\" \"wegbaro {}\"\n", env!("CARGO_PKG_VERSION"));
    assert!(page.text().starts_with(&title), "{}", page.text());
}

/// What bash offers for the last of some words.
fn offered(words: &str) -> Vec<String> {
    let completion = file("completion", wegbaro(&["--completion"], b"").text().as_bytes());
    let asked = format!(
        "source {completion}; COMP_WORDS=({words}); COMP_CWORD=$((${{#COMP_WORDS[@]}} - 1)); \
         _wegbaro; echo \"${{COMPREPLY[@]}}\"; complete -p wegbaro"
    );
    let offered = printed(Command::new("bash").arg("-c").arg(asked));
    let (offered, registered) = offered.split_once('\n').unwrap();
    assert_eq!(registered, "complete -o default -F _wegbaro wegbaro\n");
    offered.split_whitespace().map(str::to_owned).collect()
}

#[test]
fn bash_completes_every_call() {
    assert_eq!(offered("wegbaro r"), ["run", "records", "route"]);
    assert_eq!(offered("wegbaro --v"), ["--version"]);
    assert_eq!(offered("wegbaro generate t"), ["tree"]);
    assert_eq!(offered("wegbaro picture --rules ward"), Vec::<String>::new());
    let all = offered("wegbaro ''");
    for row in SUBCOMMANDS {
        assert!(all.contains(&row.name.to_owned()), "{}", row.name);
        let offered = offered(&format!("wegbaro {} --", row.name));
        let has = |name: &str| row.options.iter().any(|option| option.name == name);
        let options = OPTIONS.iter().map(|option| option.name).filter(|name| has(name));
        assert_eq!(offered, options.collect::<Vec<&str>>(), "{}", row.name);
    }
}

/// The network of README.md, as it stands there.
fn network_of_readme() -> String {
    let readme = include_str!("../README.md");
    let (_, behind) = readme.split_once("\n## The text\n").unwrap();
    let lines = behind.lines().skip_while(|line| !line.starts_with("    widths"));
    let lines = lines.map_while(|line| line.strip_prefix("    "));
    lines.map(|line| format!("{line}\n")).collect()
}

#[test]
fn the_network_of_readme_holds_and_its_commands_are_as_it_says() {
    let network = network_of_readme();
    let lines = "start holds\n1 blocked 0 5\n2 forwarded 35\n";
    expect(&["run", "--gate", "-"], network.as_bytes(), 1, lines);
    expect(
        &["check", "-"],
        network.as_bytes(),
        0,
        "start: the network holds, no policy is broken\n",
    );
}
