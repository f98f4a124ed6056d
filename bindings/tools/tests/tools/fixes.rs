//! Grammar text made of what people write.

use crate::support::{certify, file, folder, run, text, CERTIFY};

fn fixed(text: &str) -> (i32, String, String) {
    let ran = run(CERTIFY, &["--fix", "-"], text.as_bytes());
    (ran.status, ran.out, ran.err)
}

/// What editors and other notations add to the own form.
#[test]
fn slips_of_the_own_form() {
    let good = text("asp,vol-ul", "Method,Step", &["Method:", "Method: Method Step", "Step: asp vol-ul", "Step: asp"]);
    let slips = "\u{feff}# a robot\r\nterminals = asp, \"vol_ul\"\r\n\r\nnonterminals=Method,Step\r\n\
                 rule=Method -> epsilon | Method Step\r\nrule=Step:  asp 'vol_ul' ; // takes it\r\nrule=Step: asp";
    let (status, out, err) = fixed(slips);
    assert_eq!((status, &out), (0, &good), "{err}");
    for (place, change) in [
        ("1", "the byte-order mark is taken out"),
        ("7", "the last line gets its end"),
        ("1", "line ends are written as byte 10 alone"),
        ("1", "comments are taken out"),
        ("2", "names are parted by one comma, without spaces and quotes"),
        ("3", "blank lines are taken out"),
        ("5", "'->' is written ':'"),
        ("5", "each alternative gets a rule of its own"),
        ("5", "'epsilon' is an empty right side"),
        ("6", "';' at a rule's end is taken out"),
        ("6", "one space stands before each symbol, and names have no quotes"),
        ("1", "'vol_ul' is written 'vol-ul'"),
    ] {
        assert!(err.contains(&format!("<stdin>:{place}:1: note: {change}\n")), "{change}: {err}");
    }
    assert_eq!(fixed(&good), (0, good.clone(), "<stdin>: note: nothing is changed\n".to_string()));
}

/// In the own form a use in another case is the name that is declared; where two declarations differ in case, they are two symbols.
#[test]
fn names_in_another_case() {
    let (status, out, err) =
        fixed("Terminals=take,vol_ul\nnonterminals=Method,Empty\nRULE=method: Take VOL_UL empty\nrule=EMPTY: epsilon\n");
    let good = text("take,vol-ul", "Method,Empty", &["Method: take vol-ul Empty", "Empty:"]);
    assert_eq!((status, &out), (0, &good), "{err}");
    for change in [
        "1:1: note: keys are written in small letters",
        "3:1: note: each use of a name is spelled as the name is declared",
        "1:1: note: 'vol_ul' is written 'vol-ul'",
    ] {
        assert!(err.contains(&format!("<stdin>:{change}\n")), "{err}");
    }
    let (status, out, err) = fixed(&text("a,b", "S,A", &["S: A a", "A: b A", "A: B", "s: b"]));
    assert_eq!((status, out), (0, text("a-2,b", "S,A", &["S: A a-2", "A: b A", "A: b", "S: b"])), "{err}");
    assert!(err.contains("note: 'a' is written 'a-2', to differ from 'A' in more than case\n"), "{err}");
    // Nothing is made up where no declaration is found.
    let (status, out, err) = fixed(&text("a", "S", &["S: Foo", "s: foo a"]));
    assert_eq!((status, out), (4, text("a", "S", &["S: Foo", "S: Foo a"])), "{err}");
}

/// Other notations tell Expr and expr apart.
#[test]
fn symbols_that_differ_in_case() {
    let told = |err: &str, word: &str, name: &str, other: &str| {
        assert!(
            err.contains(&format!("note: '{word}' is written '{name}', to differ from '{other}' in more than case\n")),
            "{err}"
        );
    };
    let (status, out, err) = fixed("<Expr> ::= <expr> | <Expr> \"+\" <expr>\n<expr> ::= x | \"EXPR\"\n");
    let rules = ["Expr: expr-2", "Expr: Expr plus expr-2", "expr-2: x", "expr-2: EXPR-3"];
    assert_eq!((status, out), (0, text("plus,x,EXPR-3", "Expr,expr-2", &rules)), "{err}");
    told(&err, "expr", "expr-2", "Expr");
    told(&err, "EXPR", "EXPR-3", "Expr");
    let (status, out, err) = fixed("Step = { step } ;\nstep = \"Step\" ;\n");
    let rules = ["Step-1:", "Step-1: Step-1 step-2", "Step: Step-1", "step-2: Step-3"];
    assert_eq!((status, out), (0, text("Step-3", "Step,Step-1,step-2", &rules)), "{err}");
    told(&err, "step", "step-2", "Step");
    let (status, out, err) =
        fixed("%token NUM IF\n%start prog\n%%\nprog: if | prog if;\nif: IF NUM | If num;\nnum: NUM;\nIf: 'if';\n");
    let rules = ["prog: if", "prog: prog if", "if: IF-3 NUM-2", "if: If-2 num", "num: NUM-2", "If-2: if-4"];
    assert_eq!((status, out), (0, text("NUM-2,IF-3,if-4", "prog,if,num,If-2", &rules)), "{err}");
    told(&err, "NUM", "NUM-2", "num");
}

/// What comes out is judged as strictly as any text; what cannot be understood is told by its place.
#[test]
fn what_is_still_wrong() {
    let (status, out, err) = fixed("terminals=a\nnonterminals=S\nrule=S: b\n");
    assert_eq!((status, out.as_str()), (4, "terminals=a\nnonterminals=S\nrule=S: b\n"));
    assert!(err.contains("<printed>:3:9: error: 'b' is not declared"), "{err}");
    for (text, message) in [
        ("terminals=a\nnonterminals=S\nrule=S a\n", "<stdin>:3:1: error: no colon is found; a rule is 'rule=S: a b'\n"),
        ("terminals=a\nhello\nrule=S: a\n", "<stdin>:2:1: error: no '=' is found; a line is 'terminals=a,b', "),
        ("{ \"a\": 1 }\n", "<stdin>:1:1: error: this looks like JSON; slips of grammar text, BNF, EBNF"),
        ("S = a , ? any letter ? ;\n", "<stdin>:1:9: error: '?' is not understood here\n"),
        ("S = 3 * a ;\n", "<stdin>:1:7: error: '*' is not understood here\n"),
        ("S = a - b ;\n", "<stdin>:1:7: error: '-' is not understood here\n"),
        ("S = ( a | b ;\n", "<stdin>:1:13: error: ';' is not understood here\n"),
        ("S = = b ;\n", "<stdin>:1:5: error: a mark that defines is not understood here\n"),
        ("%%\ns: A %types B;\n", "<stdin>:2:6: error: '%types' is not understood here\n"),
        ("S -> a %token b\n", "<stdin>:1:8: error: '%token' is not understood here\n"),
        ("S = \"a ;\n", "<stdin>:1:5: error: a quote does not end in its line\n"),
        ("%token A\nS: A;\n", "error: '%%' is not found, behind which the rules stand\n"),
        ("%%\ns: A { x ;\n", "error: an action in braces does not end\n"),
        (&format!("S = {}", "(".repeat(9000)), "error: brackets are nested too deeply\n"),
        (&(0..9000).map(|i| format!("a{i} -> b ;")).collect::<String>(), "error: there are more than 8000 names or rules\n"),
    ] {
        let (status, out, err) = fixed(text);
        assert_eq!((status, out.as_str()), (4, ""), "{text}");
        assert!(err.contains(message), "{text}: {err}");
    }
}

#[test]
fn backus_naur_forms() {
    let (status, out, err) = fixed("<list> ::= <item> | <list> \",\" <item>\n<item> ::= x | \"item\" | \"\"\n");
    let expected =
        text("comma,x,item-2", "list,item", &["list: item", "list: list comma item", "item: x", "item: item-2", "item:"]);
    assert_eq!((status, out), (0, expected), "{err}");
    assert!(err.contains("note: ',' is written 'comma'\n") && err.contains("note: 'item' is written 'item-2'\n"), "{err}");
    let (_, out, _) = fixed("Method = { Step } ; (* all *)\nStep = \"take\" , [ vol ] , ( well | plate )+ .\n");
    let rules = [
        "Method-1:",
        "Method-1: Method-1 Step",
        "Method: Method-1",
        "Step-1:",
        "Step-1: vol",
        "Step-3: well",
        "Step-3: plate",
        "Step-2: Step-2 Step-3",
        "Step-2: Step-3",
        "Step: take Step-1 Step-2",
    ];
    assert_eq!(out, text("vol,well,plate,take", "Method,Method-1,Step,Step-1,Step-2,Step-3", &rules));
    assert_eq!(fixed("S -> a S\nS -> epsilon\n").1, text("a", "S", &["S: a S", "S:"]));
}

#[test]
fn grammars_for_bison() {
    let grammar = "%{\n#include \"x.h\"\n%}\n%union { int value; }\n%token <value> NUM 258 \"number\"\n%token IF \"if\"\n%left '+'\n\
                   %start input\n%%\nexp: NUM | exp[l] '+' exp[r] { $$ = f(\"}\", '}'); /* } */ } | \"if\" \"number\" exp %prec '+';\n\
                   input: %empty | input exp '\\n'\n%%\nint main() { }\n";
    let (status, out, err) = fixed(grammar);
    let rules = ["exp: NUM", "exp: exp plus exp", "exp: IF NUM exp", "input:", "input: input exp newline"];
    assert_eq!((status, out), (0, text("NUM,IF,plus,newline", "input,exp", &rules)), "{err}");
    for change in
        ["precedence is left out", "actions in braces are left out", "'%prec' is left out", "names in square brackets"]
    {
        assert!(err.contains(change), "{change}: {err}");
    }
}

/// What bison takes since its versions 2.5 and 3.6: a name in square brackets behind a left side too, and words that are translated.
#[test]
fn names_and_words_of_new_bison() {
    let grammar = "%token IF _(\"if\") NUM \"number\"\n%%\nexp[res]: \"if\" exp[l] { $res = $l; }\n\
                   | \"number\"\nother[x]: exp[left.side];\n";
    let (status, out, err) = fixed(grammar);
    assert_eq!((status, out), (0, text("IF,NUM", "exp,other", &["exp: IF exp", "exp: NUM", "other: exp"])), "{err}");
    assert!(err.contains("names in square brackets are left out"), "{err}");
}

/// bison takes declarations among the rules too, also behind the rules that use them.
#[test]
fn declarations_among_the_rules_of_bison() {
    let grammar = "%token NUM \"number\"\n%%\n%start unit;\nexp: \"number\" | exp \"+\" exp %expect-rr 0 { } | \"if\" exp\n\
                   %left PLUS;\n%token PLUS \"+\" IF \"if\";\n%nterm <std::vector<int>> unit;\nunit: exp;\n%printer { } <int>;\n%%\n";
    let (status, out, err) = fixed(grammar);
    let rules = ["exp: NUM", "exp: exp PLUS exp", "exp: IF exp", "unit: exp"];
    assert_eq!((status, out), (0, text("NUM,PLUS,IF", "unit,exp", &rules)), "{err}");
    assert!(err.contains("<stdin>:5:1: note: precedence is left out: the grammar is judged without it\n"), "{err}");
}

/// Long names stay distinct, and a table tells old and new ones.
#[test]
fn long_names() {
    let (status, out, err) =
        fixed("statement_list_of_one -> a_very_long_terminal_name | a_very_long_terminal_game IF\nif -> b\n");
    assert_eq!((status, out.lines().next().unwrap()), (0, "terminals=a-very-long-ter,a-very-long-t-2,IF-2,b"), "{out}");
    for change in [
        "'statement_list_of_one' is written 'statement-list-'",
        "'a_very_long_terminal_game' is written 'a-very-long-t-2'",
        "'IF' is written 'IF-2', to differ from 'if' in more than case",
    ] {
        assert!(err.contains(change), "{err}");
    }
    let names: Vec<&str> = out.lines().take(2).flat_map(|line| line.split('=').nth(1).unwrap().split(',')).collect();
    assert!(names.iter().all(|name| (1..=15).contains(&name.len())));
}

/// The grammars beside bison stand there twice: what is made of the one for bison has the verdict of the other.
#[test]
fn the_grammars_beside_bison() {
    let folder = folder("bindings/tools/tests/beside-bison");
    let mut compared = 0;
    for entry in std::fs::read_dir(&folder).unwrap() {
        let path = entry.unwrap().path();
        if path.extension().is_some_and(|ending| ending == "y") {
            let ran = run(CERTIFY, &["--fix", path.to_str().unwrap()], b"");
            let other = std::fs::read_to_string(path.with_extension("grammar")).unwrap();
            let quiet = |text: &str| run(CERTIFY, &["--looked", "-"], text.as_bytes()).out;
            let numbers = |out: String| out.lines().filter(|line| !line.contains('(')).map(String::from).collect::<Vec<_>>();
            assert_eq!((ran.status, numbers(quiet(&ran.out))), (0, numbers(quiet(&other))), "{path:?} {}", ran.err);
            compared += 1;
        }
    }
    assert_eq!(compared, 6);
}

/// Whatever is put in, there is an answer; what comes out with status 0 is grammar text, and is left as it is when it comes again.
#[test]
fn damaged_texts() {
    let sources = [
        "%token A\n%%\ns: A { x } | s '+' A;\n",
        "S = { a | \"b\" } , [ c ] ;\n",
        "terminals=a,b\nnonterminals=S\nrule=S: a | b\n",
        "<s> ::= <t> | a\n<t> ::= \"x\"\n",
    ];
    let mut seen = 0;
    for source in sources {
        for place in 0..source.len() {
            for byte in ["", "\"", "{", "}", "|", "%", "<", "\n", "\u{e9}", "=", "*"] {
                let damaged = format!("{}{byte}{}", &source[..place], &source[place + 1..]);
                if let Ok(found) = ambig_tools::fix::fixed(damaged.as_bytes()) {
                    if ambiguity::Grammar::read(found.text.as_bytes()).is_ok() {
                        assert_eq!(ambig_tools::fix::fixed(found.text.as_bytes()).unwrap().text, found.text);
                        seen += 1;
                    }
                }
            }
        }
    }
    assert!(seen > 200, "{seen}");
    let file = file("fix-file", "S -> a\n");
    assert_eq!(run(CERTIFY, &["--fix", &file, &file], b"").status, 2);
    assert_eq!(certify("S -> a\n").status, 4);
}
