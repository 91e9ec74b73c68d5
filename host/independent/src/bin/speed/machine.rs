//! What the program runs on, in words.

use std::env::consts::ARCH;
use std::fs;
use std::process::Command;

/// Says the name of the processor and the kind of machine.
pub fn told() -> String {
    format!("{}, {ARCH}", processor())
}

/// Says, where the machine is not of the product's kind, what the archives are then.
pub fn other_kind() -> Option<String> {
    (ARCH != "x86_64").then(|| {
        format!(
            "Rattle is here the same module as the product's for x86-64, but for the name of an x86 \
             processor, compiled for {ARCH}."
        )
    })
}

/// Gives the processor's name, or the numbers that stand for it.
fn processor() -> String {
    let facts = fs::read_to_string("/proc/cpuinfo").unwrap_or_default();
    let by_number = || {
        let part = fact(&facts, "CPU part")?;
        let implementer = fact(&facts, "CPU implementer")?;
        Some(format!(
            "processor of implementer {implementer}, part {part}"
        ))
    };
    fact(&facts, "model name")
        .or_else(|| fact(&listed(), "Model name"))
        .or_else(by_number)
        .unwrap_or_else(|| "an unknown processor".to_string())
}

/// Gives what the command lscpu says, nothing where it is not there.
fn listed() -> String {
    let said = Command::new("lscpu").env("LC_ALL", "C").output();
    said.map(|said| String::from_utf8_lossy(&said.stdout).into_owned())
        .unwrap_or_default()
}

/// Finds what stands behind a name and a colon in a list of facts.
fn fact(facts: &str, name: &str) -> Option<String> {
    let mut lines = facts.lines().filter_map(|line| line.split_once(':'));
    let (_, value) = lines.find(|(found, _)| found.trim() == name)?;
    let value = value.trim();
    (!value.is_empty() && value != "-").then(|| value.to_string())
}

#[cfg(test)]
mod tests {
    use super::*;

    /// The first fact of a name is found, and what is not there is not.
    #[test]
    fn facts() {
        let facts = "processor\t: 0\nmodel name\t: A B @ 1 GHz\nmodel name\t: C\nModel name: -\n";
        assert_eq!(fact(facts, "model name").as_deref(), Some("A B @ 1 GHz"));
        assert_eq!(fact(facts, "Model name"), None);
        assert_eq!(fact(facts, "name"), None);
        assert!(told().ends_with(ARCH) && !told().contains('\n'));
    }
}
