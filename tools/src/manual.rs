//! The page for `man` and the completion for bash, made of the help and of the table of subcommands.

use crate::generate::Kind;
use crate::subcommands::{help, Subcommand, SUBCOMMANDS};

/// The sections of the page, one for each paragraph of the help.
const SECTIONS: [&str; 6] = ["NAME", "SYNOPSIS", "OPERANDS", "OPTIONS", "EXIT STATUS", "SEE ALSO"];

/// What a call has instead of a subcommand.
const ALONE: &str = "--help --version --man --completion";

/// The page for `man`.
pub fn page() -> String {
    let help = help();
    let sections = SECTIONS.iter().zip(help.trim_end().split("\n\n"));
    let sections: String = sections.map(|(name, text)| section(name, text)).collect();
    format!(".TH WEGBARO 1 \"\" \"wegbaro {}\"\n{sections}", env!("CARGO_PKG_VERSION"))
}

/// A paragraph as a section: lines that are indented stay as they are, others are filled.
fn section(name: &str, text: &str) -> String {
    let text = text.replace('\\', "\\e").replace('-', "\\-").replace('\'', "\\(aq");
    let text = text.replace('`', "\\(ga");
    match text.strip_prefix("wegbaro: ") {
        Some(purpose) => format!(".SH {name}\nwegbaro \\- {purpose}\n"),
        None if text.starts_with(' ') => format!(".SH {name}\n.nf\n{text}\n.fi\n"),
        None => format!(".SH {name}\n{text}\n"),
    }
}

/// The completion for bash: subcommands first, then each one's options and else files.
pub fn completion() -> String {
    let names: Vec<&str> = SUBCOMMANDS.iter().map(|row| row.name).collect();
    let cases: String = SUBCOMMANDS.iter().map(completed).collect();
    format!(
        "\
_wegbaro() {{
    local words
    case ${{COMP_WORDS[1]}} in
{cases}    esac
    ((COMP_CWORD > 1)) || words='{} {ALONE}'
    COMPREPLY=($(compgen -W \"$words\" -- \"${{COMP_WORDS[COMP_CWORD]}}\"))
}}
complete -o default -F _wegbaro wegbaro
",
        names.join(" ")
    )
}

/// What can follow a subcommand, but for files.
fn completed(row: &Subcommand) -> String {
    let kinds = Kind::ALL.map(Kind::word);
    let kinds = kinds.iter().filter(|_| row.operands.shown == "KIND").copied();
    let options = row.options.iter().map(|option| option.name);
    let words: Vec<&str> = kinds.chain(options).collect();
    format!("    {}) words='{}' ;;\n", row.name, words.join(" "))
}
