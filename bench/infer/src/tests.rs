//! What the program says of some modules.
use crate::subsume::{are_equivalent, subsumes};
use crate::types::{compare, entries, labels_of, numbered};
use crate::project::{self, Said, Ways};
use crate::{answer, generate};
use bench_common::tokens;

/// A module, what is said of it when schemes are simplified, and the status.
const ROWS: [(&str, &str, i32); 20] = [
    ("let id = fun x -> x", "val id : a -> a\n", 0),
    ("let twice = fun f -> fun x -> f (f x)", "val twice : (a | b -> a) -> b -> a\n", 0),
    ("let self = fun x -> x x", "val self : a & (a -> b) -> b\n", 0),
    ("let pick = fun b -> if b then 1 else true", "val pick : bool -> bool | int\n", 0),
    ("let rec f = fun x -> f", "val f : rec a. top -> a\n", 0),
    ("let get = fun r -> {a = r, b = r.a}", "val get : a & {a: b} -> {a: a, b: b}\n", 0),
    ("", "", 0),
    ("let e = {}", "val e : {}\n", 0),
    ("let bad = {a = 1}.b", "main.ml:1:19: no scheme for bad: a record without the field b\n", 1),
    ("let bad = 1 2", "main.ml:1:11: no scheme for bad: int where a function is expected\n", 1),
    ("let p = let i = fun x -> x in {a = i 1, b = i true}", "val p : {a: int, b: bool}\n", 0),
    ("let q = fun x -> let y = x in y + 1", "val q : int -> int\n", 0),
    ("let s = fun x -> let f = fun y -> x in fun x -> f x", "val s : a -> top -> a\n", 0),
    ("let w = (fun x -> x x) (fun x -> x x)", "val w : bot\n", 0),
    ("let fix = fun f -> (fun x -> f (x x)) (fun x -> f (x x))", "val fix : (a -> a) -> a\n", 0),
    ("let n = fun b -> if b then b else false", "val n : bool -> bool\n", 0),
    ("let comp = fun f -> fun g -> fun x -> f (g x)", "val comp : (a -> b) -> (c -> a) -> c -> b\n", 0),
    ("let bad = true + 1", "main.ml:1:16: no scheme for bad: bool where int is expected\n", 1),
    ("let ok = 1\nlet bad = ok ok", "main.ml:2:11: no scheme for bad: int where a function is expected\n", 1),
    ("let n = 9223372036854775807", "val n : int\n", 0),
];

#[test]
fn simplified_signatures() {
    for (text, said, status) in ROWS {
        assert_eq!(answer("main", text.as_bytes(), true), (said.to_string(), status), "{text}");
    }
}

/// Whether the first type subsumes the second, and the second the first.
fn directions(first: &str, second: &str) -> (bool, bool) {
    let text = format!("val first : {first}\nval second : {second}\n");
    let tokens = tokens(text.as_bytes()).ok().expect("the types have tokens");
    let labels = numbered(&labels_of([(text.as_bytes(), &tokens[..])].into_iter()));
    let read = entries(text.as_bytes(), &tokens, &labels).expect("the types are read");
    let [(_, first), (_, second)] = &read[..] else { panic!("two entries") };
    let both = (subsumes(first, second), subsumes(second, first));
    assert_eq!(are_equivalent(first, second), both == (true, true));
    both
}

#[test]
fn subsumption() {
    let rows = [
        ("a -> a", "int -> int", (true, false)),
        ("a -> a", "a & int -> a | int", (true, false)),
        ("a -> a", "(rec a. {next: a}) -> rec a. {next: a}", (true, false)),
        ("a -> a", "a -> b", (false, true)),
        ("a -> a", "int -> bool", (false, false)),
        ("a -> a", "{}", (false, false)),
        ("{}", "{a: int}", (false, true)),
        ("bool", "bool | int", (true, false)),
        ("a -> top -> a", "a -> b -> a", (true, true)),
        ("a -> top -> a", "a -> a -> a", (true, false)),
        ("rec a. top -> a", "rec a. top -> top -> a", (true, true)),
        ("rec a. top -> a", "top -> rec a. top -> a", (true, true)),
        ("rec a. {l: rec b. a | {m: b}}", "rec a. {l: a}", (false, true)),
        ("rec a. {l: rec b. a | {l: b}}", "rec a. {l: a}", (true, true)),
        ("bot", "a -> b", (true, false)),
        ("top -> bot", "a -> b", (true, true)),
        ("(a | b -> a) -> b -> a", "(a -> a) -> a -> a", (true, false)),
        ("a & {a: b} -> {a: a, b: b}", "b & {a: a} -> {b: a, a: b}", (true, true)),
        ("{l: int} & a -> a", "{l: int} -> {l: int}", (true, false)),
    ];
    for (first, second, expected) in rows {
        assert_eq!(directions(first, second), expected, "{first} and {second}");
    }
}

const PAIRS: &str = "let pair = fun x -> fun y -> {fst = x, snd = y}
let swap = fun p -> {fst = p.snd, snd = p.fst}
let tt = fun x -> fun y -> x
let ff = fun x -> fun y -> y
let cond = fun b -> fun x -> fun y -> b x y
let rec counter = fun n -> {now = n, next = fun u -> counter (n + 1)}
let p = pair 1 true
let q = swap p
let c = counter 0
let d = (c.next {}).now
let r = cond tt q.fst d
";

const PAIRS_SIGNATURE: &str = "val pair : a -> b -> {fst: a, snd: b}
val swap : {fst: a, snd: b} -> {fst: b, snd: a}
val tt : a -> top -> a
val ff : top -> a -> a
val cond : (a -> b -> c) -> a -> b -> c
val counter : int -> rec a. {next: top -> a, now: int}
val p : {fst: int, snd: bool}
val q : {fst: bool, snd: int}
val c : rec a. {next: top -> a, now: int}
val d : int
val r : bool
";

#[test]
fn some_modules() {
    assert_eq!(answer("main", PAIRS.as_bytes(), true), (PAIRS_SIGNATURE.to_string(), 0));
    let (plain, status) = answer("main", PAIRS.as_bytes(), false);
    assert_eq!(status, 0);
    let (said, all) = compare(plain.as_bytes(), PAIRS_SIGNATURE.as_bytes()).expect("both are signatures");
    assert!(all, "{said}");
}

#[test]
fn generated_modules() {
    let text = generate::generate(1, 4);
    assert_eq!(
        text,
        "let v0 = fun x -> fun y -> {a = x, b = y, c = 838}
let v1 = (v0 113) true
let v2 = fun r -> r.b + v1.c
let rec v3 = fun n -> if n < 627 then v2 {a = n, b = n, c = n} else v3 (n - 1)
"
    );
    let said = "val v0 : a -> b -> {a: a, b: b, c: int}
val v1 : {a: int, b: bool, c: int}
val v2 : {b: int} -> int
val v3 : int -> int
";
    assert_eq!(answer("generated", text.as_bytes(), true), (said.to_string(), 0));
    assert_eq!((text.len(), said.len()), (182, 120));
}

/// What is said of a module over the interface `k` and its own, and the status.
fn checked(text: &str, imported: &str, own: &str) -> (String, i32) {
    let files = [("main.ml", text), ("k.mli", imported), ("main.mli", own)];
    let read = |file: &str| files.iter().find(|each| each.0 == file).map(|each| each.1.as_bytes().to_vec());
    let ways = Ways { simplifies: true, is_slow: true };
    let Said(said, status) = project::answer(&read, "check", "main", ways);
    (said, status)
}

#[test]
fn promises() {
    let not_general = |path: &str| (format!("main: val f is not general enough at {path}\n"), 2);
    let rows = [
        ("let f = fun x -> x", "", "val f : int -> int", ("main matches main.mli\n".to_string(), 0)),
        ("let f = 1", "", "val g : int", ("main: val g is declared and not bound\n".to_string(), 2)),
        ("let f = fun x -> x + 1", "", "val f : a -> a", not_general("root.dom (int)")),
        ("let f = fun x -> x", "", "val f : a -> b", not_general("root.cod (flow)")),
        ("let f = fun r -> r.l", "", "val f : {k: int} -> int", not_general("root.dom (field l)")),
        ("let f = {a = 1}", "", "val f : {a: int, b: int}", not_general("root (field b)")),
        ("import k let f = fun x -> g (g x)", "val g : {l: int} -> {l: int}", "val f : {l: int} -> {}",
            ("main matches main.mli\n".to_string(), 0)),
        ("import k let f = 1", "val g : a & b", "", ("k.mli:1:11: fault 12: not a polar type\n".to_string(), 3)),
        ("import q let f = 1", "", "", ("q.mli: not found\n".to_string(), 4)),
    ];
    for (text, imported, own, said) in rows {
        assert_eq!(checked(text, imported, own), said, "{text} {own}");
    }
}

const IDENTITY: &str = "let id = fun x -> x\n";

const DERIVED: &str = "derivation 1
val id : a -> a
node fn 1 2
node var 0
node var 0
node fn 1 1
step 0 var env 0 1 type 1
step 1 fun 0 env type 3
step 1 sub 1 env type 0
pair lr 3 0
pair rl 1 1
pair lr 1 2
end
";

/// What is said of this derivation of a module over the interface `k`, and the status.
fn verified(module: &str, derivation: &str) -> (String, i32) {
    let files = [("id.ml", module), ("id.mld", derivation), ("k.mli", "val f : {l: int, k: bool} -> int\n")];
    let read = |file: &str| files.iter().find(|each| each.0 == file).map(|each| each.1.as_bytes().to_vec());
    let Said(said, status) = project::answer(&read, "verify", "id", Ways::default());
    (said, status)
}

/// The derivation of the identity with other lines in place of one, counted from 1.
fn with_lines(number: usize, lines: &str) -> String {
    let old = DERIVED.split_inclusive('\n').enumerate();
    old.map(|(at, line)| if at + 1 == number { lines } else { line }).collect()
}

#[test]
fn derivations() {
    let refused = |step: usize| (format!("id: step {step} is not allowed\n"), 9);
    let bad = |line: usize| (format!("id.mld:{line}: fault 19: bad line\n"), 3);
    let yes = || ("id is verified\n".to_string(), 0);
    assert_eq!(verified(IDENTITY, DERIVED), yes());
    assert_eq!(verified("", "derivation 1\n"), yes());
    assert_eq!(verified("", ""), bad(1));
    assert_eq!(verified("", "derivation 1"), bad(1));
    assert_eq!(verified(IDENTITY, "derivation 1\n"), refused(0));
    assert_eq!(verified("", DERIVED), refused(0));
    let other = DERIVED.replace("a -> a", "a -> b").replace("var 0\nnode fn 1 1", "var 1\nnode fn 1 1");
    assert_eq!(verified(IDENTITY, &other), refused(2));
    let twice = DERIVED.to_string() + &DERIVED["derivation 1\n".len()..];
    assert_eq!(verified(IDENTITY, &twice), refused(4));
    for (line, lines, said) in [
        (7, "step 0 var env 0 1 type 2\n", refused(0)),
        (7, "step 0 var env 1 1 type 1\n", refused(0)),
        (7, "step 9 var env 0 1 type 1\n", refused(0)),
        (7, "step 0 var env 0 4 type 1\n", bad(7)),
        (7, "step 0 var env 0 1 0 1 type 1\n", bad(7)),
        (7, "step 00 var env 0 1 type 1\n", bad(7)),
        (7, "step 18446744073709551615 var env 0 1 type 1\n", refused(0)),
        (7, "step 18446744073709551616 var env 0 1 type 1\n", bad(7)),
        (8, "step 1 fun 0 env type 0\n", refused(1)),
        (8, "step 1 fun 1 env type 3\n", bad(8)),
        (8, "step 1 fun  0 env type 3\n", bad(8)),
        (10, "", refused(2)),
        (10, "pair lr 3 0\nput 0 1\n", refused(2)),
        (10, "pair lr 3 0\nput 0 1\npair pp 1 1\npair pp 1 2\n", yes()),
        (10, "pair lr 3 0\nput 0 1\nput 0 1\n", bad(12)),
        (10, "pair lr 3 0\nlet 0 0\n", bad(12)),
        (9, "let 0 0\nlet 1 0\nstep 1 sub 1 env type 0\n", yes()),
        (9, "let 0 0\nlet 0 0\nstep 1 sub 1 env type 0\n", bad(10)),
        (13, "", bad(13)),
        (13, "end\n\n", bad(14)),
        (13, "end", bad(13)),
        (6, "node join 3 0\n", bad(6)),
        (6, "node fn 1 1\nnode rcd b 0 a 1\n", bad(7)),
        (6, "node fn 1 1\nnode rcd a 0 b 4\n", yes()),
        (6, "node fn 1 1\nnode rcd in 0\n", bad(7)),
        (5, "", bad(5)),
        (3, "node fn 1 4\n", bad(3)),
        (2, "val id : a -> b\n", bad(5)),
        (2, "val id :  (a) ->\ta # to itself\n", yes()),
        (2, "val id : a ->\n", bad(2)),
        (2, "val let : a -> a\n", bad(2)),
        (2, "val other : a -> a\n", refused(3)),
    ] {
        assert_eq!(verified(IDENTITY, &with_lines(line, lines)), said, "{line} {lines}");
    }
}

#[test]
fn derivations_over_other_names() {
    let module = "import k let a = f {l = 1, k = true}";
    let derivation = "derivation 1
val a : int
node int
node fn 2 5
node rcd k 4 l 3
node int
node bool
node int
step 0 name 1 env type 1
step 1 lit env type 3
step 2 lit env type 4
step 3 make 1 2 env type 2
step 4 app 0 3 env type 5
step 4 sub 4 env type 0
pair lr 5 0
end
";
    assert_eq!(verified(module, derivation), ("id is verified\n".to_string(), 0));
    let other = module.replace("l = 1, k = true", "k = 1, l = true");
    assert_eq!(verified(&other, derivation), ("id: step 3 is not allowed\n".to_string(), 9));
    let known = module.replace("f {l = 1, k = true}", "a");
    assert_eq!(verified(&known, derivation), ("id.ml:1:18: fault 6: unknown name\n".to_string(), 3));
}
