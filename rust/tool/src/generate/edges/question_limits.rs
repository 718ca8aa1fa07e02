//! Limits of a question, refusals 7 to 10.

use index_file::limits;

use super::HEAD;

/// Open demands: refusal 8, and 7 before it.
pub fn open_demands(over: usize) -> Vec<(&'static str, String)> {
    let most = limits::OPEN_DEMANDS;
    vec![
        ("open demands of constants", constants(most / 2 + over)),
        ("open demands of expressions", parentheses(most + over)),
        ("open demands of types", pointers(most + over)),
        ("order in a signature", signatures()),
        ("open demands at a second use", second_use(155 + over)),
        ("open demands below a struct", structs(most / 3 + over)),
        ("open demands of uses", uses(limits::MODULES)),
        ("ring at the depth limit", ring(most / 2 + over)),
    ]
}

/// Types and items held: refusal 9. Text: refusal 10.
pub fn types(over: usize) -> Vec<(&'static str, String)> {
    let free = limits::DISTINCT_TYPES - limits::FIRST_TYPES;
    vec![
        // One more type is the tuple itself.
        ("distinct types", arrays(free - 1 + over)),
        ("distinct functions", functions(free - 1 + over)),
        ("items of types", shadowed_tuple(2 + over)),
        ("text", text_of(819 + over)),
    ]
}

/// Constants that each name the next, the last one `true`.
fn constants(count: usize) -> String {
    let mut text = HEAD.to_string();
    for number in 0..count {
        text.push_str(&format!("D 0 c{number} 0 1 0 1 const - {number}\n"));
    }
    for number in 1..count {
        text.push_str(&format!(
            "E 0 {number} 999 - {number} plain - - ident c{number}\n"
        ));
    }
    text.push_str("E 0 0 999 - - plain - - bool\nQ def 0 0\nQ def 0 1\nQ expr 0 0 -\n");
    text
}

/// A tuple of 50 constants' chain, and of the same chain below parentheses. Salsa would have the
/// chain's type stored at its second use.
fn second_use(parentheses: usize) -> String {
    let mut text = HEAD.to_string();
    for number in 0..50 {
        text.push_str(&format!("D 0 c{number} 0 1 0 1 const - {number}\n"));
    }
    for number in 1..50 {
        text.push_str(&format!(
            "E 0 {number} 999 - {number} plain - - ident c{number}\n"
        ));
    }
    text.push_str("E 0 0 999 - - plain - - bool\nE 0 0 1 - 0 plain - - ident c0\n");
    for number in 0..parentheses - 1 {
        text.push_str(&format!(
            "E 0 0 {} - - plain - - paren {}\n",
            number + 2,
            number + 50
        ));
    }
    let last = parentheses + 49;
    text.push_str(&format!("E 0 0 998 - - plain - - tuple 50 {last}\n"));
    text.push_str(&format!("Q expr 0 {} -\nQ expr 0 {last} -\n", last + 1));
    text
}

/// A ring of constants, as long as the list of open demands or longer.
fn ring(count: usize) -> String {
    let mut text = HEAD.to_string();
    for number in 0..count {
        text.push_str(&format!("D 0 c{number} 0 1 0 1 const - {number}\n"));
    }
    for number in 0..count {
        let next = (number + 1) % count;
        text.push_str(&format!(
            "E 0 {number} 999 - {next} plain - - ident c{next}\n"
        ));
    }
    text.push_str("Q def 0 0\nQ def 0 1\nQ expr 0 0 -\n");
    text
}

fn parentheses(count: usize) -> String {
    let mut text = format!("{HEAD}E 0 0 1 - - plain - - bool\n");
    for number in 1..count {
        text.push_str(&format!(
            "E 0 0 {} - - plain - - paren {}\n",
            number + 1,
            number - 1
        ));
    }
    text.push_str(&format!(
        "Q expr 0 {} -\nQ expr 0 {} -\n",
        count - 1,
        count - 2
    ));
    text
}

fn pointers(count: usize) -> String {
    let mut text = format!("{HEAD}T bool\n");
    for number in 1..count {
        text.push_str(&format!("T ptr {}\n", number - 1));
    }
    text.push_str("E 0 0 1 - - plain - - bool\n");
    text.push_str(&format!(
        "Q type 0 {} 0\nQ expr 0 0 {}\n",
        count - 1,
        count - 1
    ));
    text
}

/// Two functions, one with a ring as parameter and a too deep type as return type, the other the
/// other way round. Parameters are asked first.
fn signatures() -> String {
    let mut text = format!("{HEAD}T custom R\nT bool\n");
    for number in 2..300 {
        text.push_str(&format!("T ptr {}\n", number - 1));
    }
    text.push_str("D 0 f 0 1 0 1 fn 299 p 0\nD 0 g 0 1 0 1 fn 0 p 299\n");
    text.push_str("D 0 R 0 1 0 1 struct r 0\nQ def 0 0\nQ def 0 1\n");
    text
}

/// Structs that each hold the next: three demands a struct.
fn structs(count: usize) -> String {
    let mut text = HEAD.to_string();
    for number in 0..count {
        text.push_str(&format!("T custom s{}\n", number + 1));
    }
    for number in 0..count {
        text.push_str(&format!("D 0 s{number} 0 1 0 1 struct f {number}\n"));
    }
    text.push_str(&format!(
        "D 0 s{count} 0 1 0 1 struct\nQ def 0 0\nQ def 0 1\nQ type 0 0 0\n"
    ));
    text
}

/// A chain of `use` through all modules.
fn uses(modules: usize) -> String {
    let mut text = "index 1\n".to_string();
    for number in 0..modules {
        text.push_str(&format!("M m{number}\nS - module\n"));
        if number + 1 < modules {
            text.push_str(&format!("D 0 a 0 1 0 1 use m{} a\n", number + 1));
        } else {
            text.push_str("D 0 a 0 1 0 1 loop\nD 0 a 0 1 0 1 use m0 a\n");
        }
    }
    text.push_str(&format!("Q def 0 0\nQ def {} 0\n", modules - 1));
    text
}

fn arrays(count: usize) -> String {
    let mut text = format!("{HEAD}T felt\n");
    let mut tuple = "T tuple".to_string();
    for number in 1..=count {
        text.push_str(&format!("T array 0 {number}\n"));
        tuple.push_str(&format!(" {number}"));
    }
    text.push_str(&format!(
        "{tuple}\nQ type 0 {} 0\nQ type 0 1 0\n",
        count + 1
    ));
    text
}

/// A tuple of `count` calls of different functions, each argument asked by its signature only.
fn functions(count: usize) -> String {
    let half = count.min(250);
    let mut text = format!("{HEAD}T u32\n");
    for number in 0..half {
        text.push_str(&format!("D 0 f{number} 0 1 0 1 fn 0 a 0\n"));
    }
    let mut tuple = "E 0 9999 9999 - - plain - - tuple".to_string();
    for number in 0..half {
        let (callee, argument) = (2 * number, 2 * number + 1);
        text.push_str(&format!(
            "E 0 {callee} 9000 - {number} plain - - ident f{number}\n"
        ));
        text.push_str(&format!("E 0 {argument} 9000 - - arg {callee} 0 lit -\n"));
        tuple.push_str(&format!(" {argument}"));
    }
    text.push_str(&format!("{tuple}\nQ expr 0 {} -\nQ expr 0 1 -\n", 2 * half));
    text
}

/// One tuple type of 1,023 names that mean different structs in two scopes; the inner struct has
/// some fields, which decide.
fn shadowed_tuple(fields: usize) -> String {
    let tuple = " 0".repeat(1023);
    let fields: String = (0..fields).map(|n| format!(" f{n} 2")).collect();
    format!(
        "{HEAD}S 0 block\nT custom A\nT tuple{tuple}\nT felt\n\
         D 0 A 0 1 0 1 struct\nD 1 A 0 1 0 1 struct{fields}\nD 0 f 0 1 0 1 fn 1\n\
         E 1 0 1 - - return - - cast 1\nE 1 1 2 - - return - - lit -\nQ expr 0 0 -\nQ expr 0 1 -\n"
    )
}

/// A tuple of felts: 5 bytes each, and one more.
fn text_of(felts: usize) -> String {
    format!(
        "{HEAD}T felt\nT tuple{}\nQ type 0 1 0\nQ type 0 0 0\n",
        " 0".repeat(felts)
    )
}
