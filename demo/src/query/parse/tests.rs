//! Tests the parser on correct conditions and lists, and on wrong ones with the position of the
//! fault.

use super::{column_names, condition, selection};

#[test]
fn conditions() {
    let cases = [
        ("a>4", "\"a\" > 4"),
        ("x = 'it''s'", "\"x\" = 'it''s'"),
        ("\"a \"\"b\" <> -1.5e-3", "\"a \"\"b\" <> -0.0015"),
        ("4 < a", "4 < \"a\""),
        ("a==b", "\"a\" = \"b\""),
        ("a is null", "\"a\" is null"),
        ("A IS NOT NULL", "not (\"A\" is null)"),
        (
            "a = 1 or b = 2 and c = 3",
            "(\"a\" = 1) or ((\"b\" = 2) and (\"c\" = 3))",
        ),
        (
            "(a = 1 or b = 2) and c = 3",
            "((\"a\" = 1) or (\"b\" = 2)) and (\"c\" = 3)",
        ),
        ("not a = 1 and b = 2", "(not (\"a\" = 1)) and (\"b\" = 2)"),
        ("not not a = 1", "not (not (\"a\" = 1))"),
        ("\"and\" = 1", "\"and\" = 1"),
        ("a in (1)", "\"a\" = 1"),
        (
            "a in (1, b , 'c') and b = 2",
            "((\"a\" = 1) or (\"a\" = \"b\") or (\"a\" = 'c')) and (\"b\" = 2)",
        ),
        ("a NOT IN (1, 2)", "not ((\"a\" = 1) or (\"a\" = 2))"),
        ("in = 1 or in in (2)", "(\"in\" = 1) or (\"in\" = 2)"),
        ("größe\t>=\n2", "\"größe\" >= 2"),
        ("a = 99999999999999999999", "\"a\" = 1e20"),
    ];
    for (text, wanted) in cases {
        let read = condition(text).unwrap_or_else(|error| panic!("{text}: {error}"));
        assert_eq!(read.to_string(), wanted);
    }
}

/// Each wrong text, with the byte of the fault and a part of the message.
#[test]
fn wrong_conditions() {
    let cases = [
        ("", 0, "a condition is wanted"),
        ("  ", 0, "a condition is wanted"),
        (
            "a",
            1,
            "a comparison, as \"=\" or \"<\", \"is\" or \"in\" is wanted",
        ),
        ("a >", 3, "a column, a number or a text is wanted"),
        ("a > 4 b", 6, "\"and\", \"or\" or the end is wanted"),
        ("a > 4)", 5, "\"and\", \"or\" or the end is wanted"),
        ("(a > 4", 6, "\"and\", \"or\" or \")\" is wanted"),
        ("a > 4 and", 9, "a condition is wanted"),
        ("a = null", 4, "write \"is null\""),
        ("a in 1", 5, "\"(\" is wanted"),
        ("a in ()", 6, "a column, a number or a text is wanted"),
        ("a in (1 2)", 8, "a comma or \")\" is wanted"),
        ("a in (1, null)", 9, "write \"is null\""),
        ("a not 1", 6, "\"in\" is wanted"),
        ("a is 4", 5, "\"null\" or \"not null\" is wanted"),
        ("a is not 4", 9, "\"null\" is wanted"),
        ("4 is null", 2, "a comparison"),
        ("a = 'b", 4, "the quote ' is never closed"),
        ("a = \"b", 4, "the quote \" is never closed"),
        ("a = 4b", 4, "\"4b\" isn't a number"),
        (
            "eol-esm is null",
            3,
            "\"-esm\" isn't a number; a name with such characters is between double quotes",
        ),
        ("a = 1.2.3", 4, "\"1.2.3\" isn't a number"),
        ("a = 1e999", 4, "\"1e999\" isn't a number"),
        ("a = -", 4, "\"-\" isn't a number"),
        ("a & b", 2, "'&' begins no word"),
        ("é = 1 ; b", 7, "';' begins no word"),
        ("and = 1", 0, "a condition is wanted"),
    ];
    for (text, at, wrong) in cases {
        let error = condition(text).unwrap_err();
        assert!(error.wrong.contains(wrong), "{text}: {error}");
        assert_eq!(error.at, at, "{text}: {error}");
    }
}

#[test]
fn errors_point_at_their_place() {
    let text = "größe > 4 and\n  farbe == rot und";
    let error = condition(text).unwrap_err().of("--where", text);
    assert_eq!(
        error.to_string(),
        "--where: \"and\", \"or\" or the end is wanted here\n    farbe == rot und\n\
         \x20                ^"
    );
}

#[test]
fn nesting_is_bounded() {
    let deep = |depth: usize| format!("{}a = 1{}", "(".repeat(depth), ")".repeat(depth));
    assert!(condition(&deep(199)).is_ok());
    assert!(
        condition(&deep(200))
            .unwrap_err()
            .wrong
            .contains("nested at most 200 deep")
    );
    assert!(condition(&"(".repeat(1 << 20)).is_err());
    assert!(condition(&"not ".repeat(1 << 20)).is_err());
    let long = vec!["a = 1"; 100_000].join(" or ");
    assert!(condition(&long).is_ok());
}

#[test]
fn lists() {
    let list = selection("count(*), SUM(a), min(\"b c\"),max(a),Avg(a),count( a )").unwrap();
    let names: Vec<String> = list.iter().map(ToString::to_string).collect();
    assert_eq!(
        names,
        [
            "count(*)", "sum(a)", "min(b c)", "max(a)", "avg(a)", "count(a)"
        ]
    );
    for (text, at) in [
        ("", 0),
        ("mean(a)", 0),
        ("sum(*)", 4),
        ("sum a", 4),
        ("sum(a", 5),
        ("sum(a),", 7),
        ("a", 0),
    ] {
        assert_eq!(selection(text).unwrap_err().at, at, "{text}");
    }
    let names = column_names("a, \"b c\",a").unwrap();
    let names: Vec<&str> = names.iter().map(|it| it.name.as_str()).collect();
    assert_eq!(names, ["a", "b c", "a"]);
    for (text, at) in [("", 0), ("a,", 2), ("a b", 2), ("a, and", 3), ("sum(a)", 3)] {
        assert_eq!(column_names(text).unwrap_err().at, at, "{text}");
    }
}
