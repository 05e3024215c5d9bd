//! The texts that both programs are measured on.
use crate::generate::generate;
use bench_common::{colliding_names, counted_names};
use std::fmt::Write as _;
use std::fs;
use std::path::Path;

/// What stands between lines `0`, `1` and so on, made by a function of their numbers.
fn joined(count: usize, between: &str, line: impl Fn(usize) -> String) -> String {
    (0..count).map(line).collect::<Vec<_>>().join(between)
}

/// The texts of inference, each with its name.
fn texts_of_inference() -> Vec<(&'static str, String)> {
    let fields = joined(3_000, ", ", |number| format!("l{number} = {number}"));
    let projections = joined(3_000, " + ", |number| format!("r.l{number}"));
    // 150 parameters, and what is made of 6,000 of their fields, or of 8,000 uses
    let parameters = joined(150, "", |number| format!("fun a{number} -> "));
    let their_fields = joined(6_000, " + ", |number| format!("a{}.l{}", number % 150, number / 150));
    let their_uses = joined(8_000, " ", |number| format!("a{}", number % 150));
    let uses = joined(60_000, ", ", |number| format!("l{number} = x{}", if number % 2 == 0 { "" } else { ".l" }));
    let arguments = joined(2_000, " ", |number| format!("r.l{number}"));
    let choices = joined(2_000, " + ", |number| format!("(if r.b{number} then r.l{number} else 1)"));
    let numerals = joined(3_000, "\n", |number| match number {
        0 => "let n0 = add one one".to_string(),
        _ => format!("let n{number} = add n{} one", number - 1),
    });
    let church = "let one = fun f -> fun x -> f x\nlet add = fun m -> fun n -> fun f -> fun x -> m f (n f x)";
    // a text of as many lets as may be nested; a line may be so much deeper than its let
    let lets = |deeper: usize, first: &str, line: fn(usize) -> String| {
        let count = 198 - deeper;
        format!("let a = let x0 = {first} in {} in x{count}", joined(count, " in ", move |number| line(number + 1)))
    };
    vec![
        ("generated", generate(1, 10_000)),
        ("identities", format!("let id = fun x -> x\nlet a = {} 1", "id ".repeat(2_000))),
        ("parameter", format!("let a = fun f -> f{}", " 1".repeat(2_000))),
        ("church", format!("{church}\n{numerals}")),
        ("fields", format!("let r = {{{fields}}}\nlet a = {projections}")),
        ("fields_of_let", format!("let a = let r = {{{fields}}} in {projections}")),
        ("fields_of_parameter", format!("let a = fun r -> {projections}")),
        ("fields_of_parameters", format!("let a = {parameters}{their_fields}")),
        ("uses_of_parameters", format!("let a = {parameters}{their_uses}")),
        ("record_of_uses", format!("let a = fun x -> {{{uses}}}")),
        ("arguments_of_fields", format!("let a = fun f -> fun r -> f {arguments}")),
        ("choices_of_fields", format!("let a = fun r -> {choices}")),
        ("operands", format!("let a = 1{}", "+1".repeat(249_999))),
        ("operands_of_parameter", format!("let a = fun x -> x{}", "+x".repeat(249_999))),
        ("lets_of_numbers", lets(0, "1", |number| format!("let x{number} = x{} + 1", number - 1))),
        (
            "lets_of_functions",
            lets(2, "fun y -> y", |number| format!("let x{number} = fun y -> x{0} (x{0} y)", number - 1)),
        ),
        ("lets_of_records", lets(1, "{}", |number| format!("let x{number} = {{l = x{}}}", number - 1))),
    ]
}

/// Writes the module `uses` with 100 imports of 1,000 declarations each, of which it uses 1,000, and its interface.
fn write_project(folder: &str) -> std::io::Result<()> {
    let mut text = String::new();
    let mut promise = String::new();
    for import in 0..100 {
        let declared = joined(1_000, "", |number| {
            format!("val v{import}_{number} : (a -> b) -> {{first: a, next: {{l{number}: int}}}} -> b\n")
        });
        fs::write(format!("{folder}/m{import}.mli"), declared)?;
        let _ = writeln!(text, "import m{import}");
    }
    for number in 0..1_000 {
        let _ = writeln!(text, "let u{number} = fun f -> v{}_{number} (fun x -> f x)", number % 100);
        let _ = writeln!(promise, "val u{number} : (int -> b) -> {{first: int, next: {{l{number}: int}}}} -> b");
    }
    fs::write(format!("{folder}/uses.ml"), text)?;
    fs::write(format!("{folder}/uses.mli"), promise)
}

/// Texts of 60,000 names, of which a map with a hash may look for each among all before it, each with its name.
fn texts_of_names(kind: &str, names: &[String]) -> [(String, String); 3] {
    let lines = |word: &str, rest: &str| names.iter().map(|name| format!("{word} {name}{rest}\n")).collect::<String>();
    let parts = names.iter().map(|name| format!("{name}=1")).collect::<Vec<_>>().join(",");
    [
        (format!("{kind}_lets"), lines("let", "=1")),
        (format!("{kind}_imports"), lines("import", "")),
        (format!("{kind}_record"), format!("let a={{{parts}}}")),
    ]
}

/// Writes the texts that both programs are measured on into a folder.
pub fn write_texts(folder: &str) -> std::io::Result<()> {
    for (kind, names) in [("colliding", colliding_names(60_000)), ("counted", counted_names(60_000))] {
        for (name, text) in texts_of_names(kind, &names) {
            fs::write(Path::new(folder).join(format!("{name}.ml")), text)?;
        }
    }
    for (name, text) in texts_of_inference() {
        fs::write(Path::new(folder).join(format!("{name}.ml")), text)?;
    }
    write_project(folder)?;
    for count in [2_500, 5_000, 10_000, 20_000] {
        let mut text = String::new();
        for number in 0..count {
            let _ = writeln!(text, "let value{number} = fun first -> fun other{} -> first", number % 7);
        }
        fs::write(format!("{folder}/bindings{count}.ml"), text)?;
    }
    let deep = |open: &str, leaf: &str, close: &str| {
        let mut text = String::new();
        let mut number = 0;
        while text.len() < 1_040_000 {
            let _ = writeln!(text, "let d{number} = {}{leaf}{}", open.repeat(199), close.repeat(199));
            number += 1;
        }
        text
    };
    fs::write(format!("{folder}/functions.ml"), deep("fun x -> ", "x", ""))?;
    fs::write(format!("{folder}/parentheses.ml"), deep("(", "1", ")"))?;
    let mut short = String::new();
    let mut number = 0;
    while short.len() < 1_048_500 {
        let _ = writeln!(short, "let a{number} = fun x -> x");
        number += 1;
    }
    fs::write(format!("{folder}/short.ml"), short)?;
    fs::write(format!("{folder}/open.ml"), format!("let a = {}", "(".repeat(1_048_560)))?;
    fs::write(format!("{folder}/spaces.ml"), " ".repeat(1_048_576))?;
    let long = |before: &str, part: &str| {
        let count = (1_048_576 - before.len()) / part.len();
        format!("{before}{}", part.repeat(count))
    };
    fs::write(format!("{folder}/sum.ml"), long("let a = 1", "+1"))?;
    fs::write(format!("{folder}/product.ml"), long("let a = 1", "*1"))?;
    fs::write(format!("{folder}/arguments.ml"), long("let f = fun x -> x let a = f", " 1"))?;
    fs::write(format!("{folder}/projections.ml"), long("let a = fun x -> x", ".l"))?;
    let mut record = String::from("let a = {l = 1");
    let mut label = 0;
    while record.len() < 1_048_500 {
        let _ = write!(record, ",l{label}=1");
        label += 1;
    }
    fs::write(format!("{folder}/record.ml"), record + "}")?;
    fs::write(format!("{folder}/lets.ml"), deep("let x = 1 in ", "x", ""))?;
    fs::write(format!("{folder}/records.ml"), deep("{l = ", "1", "}"))?;
    fs::write(format!("{folder}/choices.ml"), deep("if true then 1 else ", "1", ""))?;
    fs::write(
        format!("{folder}/imports.ml"),
        (0..70_000).fold(String::new(), |mut text, number| {
            let _ = writeln!(text, "import m{number}");
            text
        }),
    )?;
    fs::write(
        format!("{folder}/earlier.ml"),
        (0..40_000).fold(String::from("let a0 = 1\n"), |mut text, number| {
            let _ = writeln!(text, "let a{} = a{number}", number + 1);
            text
        }),
    )?;
    fs::write(format!("{folder}/bytes.ml"), vec![255; 1_048_576])
}
