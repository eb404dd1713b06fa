//! Help on every level: it is what the help files say, it has an example, and the example runs.

mod common;

use common::Folder;

const COMMANDS: [&str; 10] = [
    "demo",
    "show",
    "step",
    "ingress",
    "egress",
    "journey",
    "reverse",
    "expiration",
    "plan",
    "sign",
];

fn stored(name: &str) -> String {
    let file = format!("{}/help/{name}.txt", env!("CARGO_MANIFEST_DIR"));
    std::fs::read_to_string(file).unwrap()
}

#[test]
fn help_is_given_on_every_level() {
    let folder = Folder::new();
    for call in ["--help", "-h", "help", "help help"] {
        let ran = folder.run(call);
        assert_eq!(
            (ran.status, ran.out, ran.err),
            (0, stored("rehearse"), String::new()),
            "{call}"
        );
    }
    for command in COMMANDS {
        assert!(
            stored("rehearse").contains(&format!("    rehearse {command}")),
            "{command}"
        );
        for call in [
            format!("{command} --help"),
            format!("{command} -h"),
            format!("help {command}"),
            format!("{command} x y z --unknown --help"),
        ] {
            let ran = folder.run(&call);
            assert_eq!(
                (ran.status, ran.out, ran.err),
                (0, stored(command), String::new()),
                "{call}"
            );
        }
    }
    assert_eq!(folder.run("--version").out, "rehearse 0.1.0\n");
    assert_eq!(folder.run("-V").out, "rehearse 0.1.0\n");
}

/// The calls behind `    $ rehearse`, each with its going on behind a backslash.
fn examples(help: &str) -> Vec<String> {
    let joined = help.replace("\\\n", " ");
    let lines = joined.lines().filter_map(|line| line.strip_prefix("    $ "));
    lines.map(String::from).collect()
}

#[test]
fn each_example_runs() {
    for name in COMMANDS.iter().chain(&["rehearse"]) {
        let help = stored(name);
        assert!(
            help.lines().all(|line| line.chars().count() <= 120),
            "{name} has a long line"
        );
        let examples = examples(&help);
        assert!(!examples.is_empty(), "{name} has no example");
        // They can be typed one after the other, from an empty folder on.
        let (folder, typed) = (Folder::new(), examples.join(" && "));
        let ran = folder.shell(&typed);
        assert!(ran.status == 0 && ran.err.is_empty(), "{typed}: {ran:?}");
    }
}

/// The text forms that the helps show can be copied as they stand, and the first path passes on the example site.
#[test]
fn each_text_form_in_a_help_can_be_copied() {
    let folder = Folder::with_site();
    for (name, first, call) in [
        ("plan", "    station\n", "plan TEXT -o out.plan"),
        ("sign", "    segment\n", "sign TEXT --plan site.plan -o out.path"),
        ("sign", "    path  ", "sign TEXT --plan site.plan -o whole.path"),
    ] {
        let help = stored(name);
        let from = &help[help.find(first).unwrap()..];
        let text = format!("{}.txt", first.trim());
        folder.write(&text, &from[..from.find("\n\n").unwrap()]);
        let ran = folder.run(&call.replace("TEXT", &text));
        assert_eq!(ran.status, 0, "{name}: {}", ran.err);
    }
    let ran = folder.run(&format!("journey out.path site.plan {}", common::READINGS));
    assert_eq!(ran.status, 0, "{}", ran.out);
}

#[test]
fn each_option_is_in_its_help() {
    let folder = Folder::new();
    let step = "--table --key --plan --station --interface --now --ignore-macs --edition --write --raw --hex --json";
    for (command, options) in [
        ("demo", "--write --json"),
        ("show", "--edition --raw --hex --json"),
        ("step", step),
        ("ingress", step),
        ("egress", step),
        ("journey", "--earliest --latest --batch --edition --raw --hex --json"),
        ("reverse", "--write --edition --raw --hex --json"),
        ("expiration", "--edition --raw --hex --json"),
        ("plan", "-o --show --raw --hex --json"),
        ("sign", "--plan -o --show --edition --raw --hex --json"),
    ] {
        for option in options.split(' ') {
            let help = stored(command);
            let described = |line: &str| line.trim_start().starts_with(option) || line.contains(&format!(", {option}"));
            assert!(help.lines().any(described), "{command} {option}");
            let said = folder.run(&format!("{command} {option}")).err;
            assert!(!said.contains("is not an option"), "{command} {option}: {said}");
        }
    }
}
