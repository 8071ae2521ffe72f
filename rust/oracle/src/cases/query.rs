//! Calls as a parser makes them: trees over SELECT queries with random letter case, white space and comments.

use super::with_settings;
use crate::answers::Case;
use crate::builder::Builder;
use crate::random::Random;

pub fn make(random: &mut Random) -> Case {
    let fuel = random.within(5, 120);
    let errors = random.percent(6);
    let mut query = Query { b: Builder::default(), random, fuel, errors };
    query.file();
    let Builder { text, tape, .. } = query.b;
    with_settings(text, tape, random)
}

const NAMES: [&str; 16] = [
    "a",
    "b",
    "t",
    "x1",
    "user_id",
    "EventDate",
    "Count",
    "sum",
    "host",
    "User",
    "key",
    "date",
    "total",
    "null",
    "index",
    "arr",
];
const FUNCTIONS: [&str; 10] =
    ["count", "Sum", "toDate", "arrayMap", "if", "LEFT", "quantile", "now", "replace", "uniqExact"];
const NUMBERS: [&str; 6] = ["0", "1", "42", "3.14", "1e10", "0xFF"];
const STRINGS: [&str; 7] = ["''", "'a'", "'it''s'", "'--x'", "'a\nb'", "'%like_'", "'\\''"];
const QUOTED: [&str; 5] = ["`a b`", "\"Host\"", "`select`", "\"x\ny\"", "``"];
const GAPS: [&str; 10] = [" ", " ", " ", "  ", "\t", "\n", "\n    ", "\r\n", "\n\n", " \n \n\n"];
const LINE_COMMENTS: [&str; 5] = ["--", "-- why", "--x", "#! old", "# note"];
const BLOCK_COMMENTS: [&str; 4] = ["/**/", "/* a */", "/* two\nlines */", "/*--*/"];
const TYPES: [&str; 5] = ["UInt64", "string", "Date", "DateTime64", "Array"];

const OPERATORS: [(&str, &str); 13] = [
    ("Plus", "+"),
    ("Minus", "-"),
    ("Star", "*"),
    ("Slash", "/"),
    ("Percent", "%"),
    ("Equals", "="),
    ("NotEquals", "!="),
    ("Less", "<"),
    ("Greater", ">"),
    ("LessOrEquals", "<="),
    ("GreaterOrEquals", ">="),
    ("Spaceship", "<=>"),
    ("Concatenation", "||"),
];

type Part<'r> = fn(&mut Query<'r>);

struct Query<'r> {
    b: Builder,
    random: &'r mut Random,
    /// Parts that may still be made; without any left only leaves are made.
    fuel: usize,
    /// Whether Error nodes may occur.
    errors: bool,
}

impl<'r> Query<'r> {
    // Tokens

    /// A keyword in random letter case.
    fn word(&mut self, word: &str) {
        let text = match self.random.below(4) {
            0 => word.to_uppercase(),
            1 => self.mixed_case(word),
            _ => word.to_string(),
        };
        self.b.token("BareWord", &text);
    }

    fn mixed_case(&mut self, word: &str) -> String {
        let mut letter = |c: char| if self.random.percent(50) { c.to_ascii_uppercase() } else { c };
        word.chars().map(&mut letter).collect()
    }

    /// Keywords with gaps between and after.
    fn words(&mut self, words: &[&str]) {
        for word in words {
            self.word(word);
            self.gap();
        }
    }

    fn name(&mut self) {
        if self.random.percent(12) {
            let text = self.random.pick(&QUOTED);
            self.b.token("QuotedIdentifier", text);
        } else {
            let text = self.random.pick(&NAMES);
            self.b.token("BareWord", text);
        }
    }

    fn white(&mut self) {
        let text = self.random.pick(&GAPS);
        self.b.token("Whitespace", text);
    }

    /// White space, now and then with comments in it.
    fn gap(&mut self) {
        self.white();
        while self.random.percent(5) {
            self.comment();
        }
    }

    fn maybe_gap(&mut self) {
        if self.random.percent(40) {
            self.gap();
        }
    }

    fn comment(&mut self) {
        match self.random.below(3) {
            0 => {
                let text = self.random.pick(&BLOCK_COMMENTS);
                self.b.token("Comment", text);
                self.maybe_gap();
            }
            1 => {
                let text = self.random.pick(&LINE_COMMENTS);
                self.b.token("Comment", text);
                let end = self.random.pick(&["\n", "\n\n", "\n  "]);
                self.b.token("Whitespace", end);
            }
            _ => {
                let text = format!("{}\n", self.random.pick(&LINE_COMMENTS));
                self.b.token("Comment", &text);
            }
        }
    }

    // Shapes

    fn node(&mut self, kind: &str, fill: impl FnOnce(&mut Self)) {
        self.fuel = self.fuel.saturating_sub(1);
        self.b.open(kind);
        if self.errors && self.random.percent(2) {
            self.error();
        }
        fill(self);
        self.b.close();
    }

    fn error(&mut self) {
        self.b.open("Error");
        self.name();
        self.maybe_gap();
        self.b.close();
    }

    /// One to `most` items with commas between.
    fn items(&mut self, most: usize, item: Part<'r>) {
        item(self);
        for _ in 1..self.random.within(1, most) {
            if self.fuel == 0 {
                break;
            }
            self.maybe_gap();
            self.b.token("Comma", ",");
            self.maybe_gap();
            item(self);
        }
    }

    fn in_parens(&mut self, fill: impl FnOnce(&mut Self)) {
        self.b.token("OpeningRoundBracket", "(");
        self.maybe_gap();
        fill(self);
        self.maybe_gap();
        self.b.token("ClosingRoundBracket", ")");
    }

    fn maybe(&mut self, likelihood: usize, part: Part<'r>) {
        if self.fuel > 0 && self.random.percent(likelihood) {
            part(self);
        }
    }

    /// Whether nothing larger than a leaf may be made here.
    fn must_end(&self) -> bool {
        self.fuel == 0 || self.b.depth() > 44
    }

    // Statements

    fn file(&mut self) {
        self.b.open("File");
        if self.random.percent(30) {
            self.gap();
        }
        if self.random.percent(25) {
            self.b.open("QueryList");
            self.statements();
            self.b.close();
        } else {
            self.statements();
        }
        self.maybe_gap();
        self.b.close();
    }

    fn statements(&mut self) {
        let count = [0, 1, 1, 1, 1, 2, 3][self.random.below(7)];
        for number in 0..count {
            if number > 0 {
                self.gap();
            }
            self.statement();
            self.maybe_gap();
            if number + 1 < count || self.random.percent(30) {
                self.b.token("Semicolon", ";");
            }
        }
        if self.errors && self.random.percent(10) {
            self.error();
        }
    }

    fn statement(&mut self) {
        match self.random.below(12) {
            0 | 1 => self.union(),
            2 => self.other_statement(),
            _ => self.select(),
        }
    }

    fn other_statement(&mut self) {
        let (kind, words): (&str, &[&str]) = match self.random.below(5) {
            0 => ("UseStatement", &["use"]),
            1 => ("ShowStatement", &["show", "create", "table"]),
            2 => ("DescribeStatement", &["describe", "table"]),
            3 => ("DropStatement", &["drop", "table"]),
            _ => ("OptimizeStatement", &["optimize", "table"]),
        };
        self.node(kind, |q| {
            q.words(words);
            q.table_identifier();
        });
    }

    fn union(&mut self) {
        self.node("UnionClause", |q| {
            q.select();
            for _ in 0..q.random.within(1, 2) {
                q.gap();
                let word = q.random.pick(&["union", "except", "intersect"]);
                q.words(&[word]);
                let word = q.random.pick(&["all", "distinct"]);
                q.words(&[word]);
                q.select();
            }
        });
    }

    fn select(&mut self) {
        self.node("SelectStatement", |q| {
            q.maybe(15, Self::with);
            q.select_clause();
            q.maybe(80, Self::from);
            q.maybe(25, Self::join);
            q.maybe(8, Self::join);
            q.maybe(6, Self::array_join);
            q.maybe(8, Self::prewhere);
            q.maybe(45, Self::filter);
            q.maybe(25, Self::group_by);
            q.maybe(10, Self::having);
            q.maybe(8, Self::window);
            q.maybe(4, Self::qualify);
            q.maybe(30, Self::order_by);
            q.maybe(8, Self::limit_by);
            q.maybe(25, Self::limit);
            q.maybe(12, Self::settings);
            q.maybe(5, Self::format);
            if q.random.percent(10) {
                q.maybe_gap();
                q.b.token("Semicolon", ";");
            }
        });
    }

    // Clauses, each with the gap before it

    fn with(&mut self) {
        self.node("WithClause", |q| {
            q.words(&["with"]);
            q.items(2, Self::with_item);
        });
        self.gap();
    }

    fn with_item(&mut self) {
        self.node("WithExpressionItem", |q| {
            if q.random.percent(60) {
                q.name();
                q.gap();
                q.words(&["as"]);
                q.subquery();
            } else {
                q.expression();
                q.gap();
                q.words(&["as"]);
                q.name();
            }
        });
    }

    fn select_clause(&mut self) {
        self.node("SelectClause", |q| {
            q.words(&["select"]);
            if q.random.percent(15) {
                q.words(&["distinct"]);
            }
            q.node("ColumnList", |q| q.items(5, Self::column));
        });
    }

    fn column(&mut self) {
        self.expression();
        if self.random.percent(25) {
            self.gap();
            self.node("ColumnAlias", |q| {
                if q.random.percent(80) {
                    q.words(&["as"]);
                }
                q.name();
            });
        }
    }

    fn clause(&mut self, kind: &str, words: &[&str], fill: impl FnOnce(&mut Self)) {
        self.gap();
        self.node(kind, |q| {
            q.words(words);
            fill(q);
        });
    }

    fn from(&mut self) {
        self.clause("FromClause", &["from"], Self::table);
    }

    fn table(&mut self) {
        let source: Part<'r> = match self.random.below(6) {
            0 => Self::subquery,
            1 => Self::table_function,
            2 => Self::table_expression,
            _ => Self::table_identifier,
        };
        source(self);
        if self.random.percent(25) {
            self.gap();
            self.node("TableAlias", |q| {
                if q.random.percent(60) {
                    q.words(&["as"]);
                }
                q.name();
            });
        }
        if self.random.percent(10) {
            self.gap();
            self.word("final");
        }
    }

    fn table_identifier(&mut self) {
        self.node("TableIdentifier", |q| {
            q.name();
            if q.random.percent(30) {
                q.b.token("Dot", ".");
                q.name();
            }
        });
    }

    fn table_expression(&mut self) {
        self.node("TableExpression", |q| {
            q.table_identifier();
            q.gap();
            q.node("SampleClause", |q| {
                q.words(&["sample"]);
                q.number();
            });
        });
    }

    fn table_function(&mut self) {
        self.node("TableFunction", |q| {
            q.b.token("BareWord", "numbers");
            q.in_parens(Self::number);
        });
    }

    fn join(&mut self) {
        self.gap();
        self.node("JoinClause", |q| {
            if q.random.percent(60) {
                q.node("JoinType", |q| {
                    let words = [["left", "outer"], ["global", "any"], ["full", "all"]][q.random.below(3)];
                    q.word(words[0]);
                    q.gap();
                    q.word(words[1]);
                });
                q.gap();
            } else if q.random.percent(40) {
                q.words(&["inner"]);
            }
            q.words(&["join"]);
            q.table();
            q.gap();
            q.join_constraint();
        });
    }

    fn join_constraint(&mut self) {
        self.node("JoinConstraint", |q| {
            if q.random.percent(60) {
                q.words(&["on"]);
                q.expression();
            } else {
                q.word("using");
                q.maybe_gap();
                q.node("UsingList", |q| q.in_parens(|q| q.items(3, Self::name)));
            }
        });
    }

    fn array_join(&mut self) {
        self.clause("ArrayJoinClause", &["left", "array", "join"], Self::column);
    }

    fn prewhere(&mut self) {
        self.clause("PrewhereClause", &["prewhere"], Self::expression);
    }

    fn filter(&mut self) {
        self.clause("WhereClause", &["where"], Self::expression);
    }

    fn having(&mut self) {
        self.clause("HavingClause", &["having"], Self::expression);
    }

    fn qualify(&mut self) {
        self.clause("QualifyClause", &["qualify"], Self::expression);
    }

    fn group_by(&mut self) {
        self.clause("GroupByClause", &["group", "by"], |q| {
            match q.random.below(8) {
                0 => q.grouping_sets(),
                1..=4 => q.node("GroupByList", |q| q.items(3, Self::expression)),
                _ => q.items(3, Self::expression),
            }
            if q.random.percent(15) {
                q.gap();
                q.node("WithTotalsClause", |q| {
                    q.words(&["with"]);
                    q.word("totals");
                });
            }
        });
    }

    fn grouping_sets(&mut self) {
        self.node("GroupingSetsClause", |q| {
            q.words(&["grouping", "sets"]);
            q.in_parens(|q| q.items(3, |q| q.node("GroupingSet", |q| q.in_parens(|q| q.items(2, Self::name)))));
        });
    }

    fn order_by(&mut self) {
        self.clause("OrderByClause", &["order", "by"], |q| {
            if q.random.percent(60) {
                q.node("OrderByList", |q| q.items(3, Self::order_by_item));
            } else {
                q.items(3, Self::order_by_item);
            }
        });
    }

    fn order_by_item(&mut self) {
        self.node("OrderByItem", |q| {
            q.expression();
            if q.random.percent(50) {
                q.gap();
                let word = q.random.pick(&["asc", "desc"]);
                q.word(word);
            }
            if q.random.percent(15) {
                q.gap();
                q.node("NullsModifier", |q| {
                    q.words(&["nulls"]);
                    q.word("last");
                });
            }
            if q.random.percent(10) {
                q.gap();
                q.node("WithFillClause", |q| {
                    q.words(&["with", "fill", "step"]);
                    q.number();
                });
            }
        });
    }

    fn limit_by(&mut self) {
        self.clause("LimitByClause", &["limit"], |q| {
            q.number();
            q.gap();
            q.words(&["by"]);
            if q.random.percent(50) {
                q.node("ExpressionList", |q| q.items(3, Self::column_reference));
            } else {
                q.items(2, Self::column_reference);
            }
        });
    }

    fn limit(&mut self) {
        self.clause("LimitClause", &["limit"], |q| {
            q.number();
            match q.random.below(4) {
                0 => {
                    q.maybe_gap();
                    q.b.token("Comma", ",");
                    q.maybe_gap();
                    q.number();
                }
                1 => {
                    q.gap();
                    q.words(&["offset"]);
                    q.number();
                }
                _ => {}
            }
        });
    }

    fn settings(&mut self) {
        self.clause("SettingsClause", &["settings"], |q| {
            if q.random.percent(60) {
                q.node("SettingList", |q| q.items(3, Self::setting));
            } else {
                q.items(2, Self::setting);
            }
        });
    }

    fn setting(&mut self) {
        self.node("SettingItem", |q| {
            q.b.token("BareWord", "max_threads");
            q.maybe_gap();
            q.b.token("Equals", "=");
            q.maybe_gap();
            q.number();
        });
    }

    fn format(&mut self) {
        self.clause("FormatClause", &["format"], |q| q.b.token("BareWord", "JSONEachRow"));
    }

    fn window(&mut self) {
        self.clause("WindowClause", &["window"], |q| {
            q.node("WindowDefinition", |q| {
                q.name();
                q.gap();
                q.words(&["as"]);
                q.window_spec();
            });
        });
    }

    fn window_spec(&mut self) {
        self.node("WindowSpec", |q| {
            q.in_parens(|q| {
                q.words(&["partition", "by"]);
                q.node("ExpressionList", |q| q.items(2, Self::column_reference));
                if q.random.percent(50) {
                    q.gap();
                    q.words(&["order", "by"]);
                    q.node("OrderByList", |q| q.items(2, Self::order_by_item));
                }
                if q.random.percent(40) {
                    q.gap();
                    q.node("WindowFrame", |q| {
                        q.words(&["rows", "between", "unbounded", "preceding", "and", "current"]);
                        q.word("row");
                    });
                }
            });
        });
    }

    // Expressions

    fn expression(&mut self) {
        let leaves: [Part<'r>; 7] = [
            Self::column_reference,
            Self::column_reference,
            Self::number,
            Self::string,
            Self::qualified_name,
            Self::asterisk,
            Self::query_parameter,
        ];
        let inner: [Part<'r>; 22] = [
            Self::binary,
            Self::binary,
            Self::logical,
            Self::unary,
            Self::function,
            Self::function,
            Self::windowed,
            Self::case,
            Self::cast,
            Self::between,
            Self::is_in,
            Self::is_null,
            Self::like,
            Self::tuple,
            Self::array,
            Self::array_access,
            Self::map,
            Self::lambda,
            Self::interval,
            Self::subquery,
            Self::exists,
            Self::ternary,
        ];
        if self.must_end() || self.random.percent(40) {
            leaves[self.random.below(leaves.len())](self);
        } else {
            inner[self.random.below(inner.len())](self);
        }
    }

    fn column_reference(&mut self) {
        self.node("ColumnReference", Self::name);
    }

    fn qualified_name(&mut self) {
        self.node("QualifiedName", |q| {
            q.name();
            for _ in 0..q.random.within(1, 2) {
                q.b.token("Dot", ".");
                q.name();
            }
        });
    }

    fn asterisk(&mut self) {
        if self.random.percent(60) {
            self.node("Asterisk", |q| q.b.token("Star", "*"));
        } else {
            self.node("QualifiedAsterisk", |q| {
                q.name();
                q.b.token("Dot", ".");
                q.b.token("Star", "*");
            });
        }
    }

    fn number(&mut self) {
        let text = self.random.pick(&NUMBERS);
        self.node("NumberLiteral", |q| q.b.token("Number", text));
    }

    fn string(&mut self) {
        if self.random.percent(20) {
            let word = self.random.pick(&["null", "true", "false"]);
            let kind = if word == "null" { "NullLiteral" } else { "BooleanLiteral" };
            self.node(kind, |q| q.word(word));
        } else {
            let text = self.random.pick(&STRINGS);
            self.node("StringLiteral", |q| q.b.token("StringToken", text));
        }
    }

    fn query_parameter(&mut self) {
        self.node("QueryParameterExpression", |q| {
            q.b.token("OpeningCurlyBrace", "{");
            q.name();
            q.b.token("Colon", ":");
            q.data_type();
            q.b.token("ClosingCurlyBrace", "}");
        });
    }

    fn binary(&mut self) {
        self.node("BinaryExpression", |q| {
            q.expression();
            q.maybe_gap();
            let (kind, sign) = OPERATORS[q.random.below(OPERATORS.len())];
            q.b.token(kind, sign);
            q.maybe_gap();
            q.expression();
        });
    }

    fn logical(&mut self) {
        self.node("BinaryExpression", |q| {
            q.expression();
            q.gap();
            let word = q.random.pick(&["and", "or", "div", "mod"]);
            q.words(&[word]);
            q.expression();
        });
    }

    fn unary(&mut self) {
        self.node("UnaryExpression", |q| {
            if q.random.percent(50) {
                q.b.token("Minus", "-");
                q.maybe_gap();
            } else {
                q.words(&["not"]);
            }
            q.expression();
        });
    }

    fn function(&mut self) {
        let kind = self.random.pick(&["FunctionCall", "FunctionCall", "AggregateFunction"]);
        self.node(kind, |q| {
            let name = q.random.pick(&FUNCTIONS);
            q.b.token("BareWord", name);
            if q.random.percent(10) {
                q.in_parens(Self::number);
            }
            q.maybe_gap();
            q.in_parens(|q| {
                if q.random.percent(80) {
                    q.node("ExpressionList", |q| q.items(3, Self::expression));
                }
            });
            if q.random.percent(6) {
                q.gap();
                q.node("FilterClause", |q| {
                    q.words(&["filter"]);
                    q.in_parens(Self::expression);
                });
            }
        });
    }

    fn windowed(&mut self) {
        self.node("WindowExpression", |q| {
            q.function();
            q.gap();
            q.words(&["over"]);
            if q.random.percent(70) {
                q.window_spec();
            } else {
                q.name();
            }
        });
    }

    fn case(&mut self) {
        self.node("CaseExpression", |q| {
            q.word("case");
            q.gap();
            if q.random.percent(25) {
                q.expression();
                q.gap();
            }
            for _ in 0..q.random.within(1, 2) {
                q.node("WhenClause", |q| {
                    q.words(&["when"]);
                    q.expression();
                    q.gap();
                    q.words(&["then"]);
                    q.expression();
                });
                q.gap();
            }
            if q.random.percent(60) {
                q.words(&["else"]);
                q.expression();
                q.gap();
            }
            q.word("end");
        });
    }

    fn cast(&mut self) {
        self.node("CastExpression", |q| {
            if q.random.percent(50) {
                q.expression();
                q.b.token("DoubleColon", "::");
                q.data_type();
            } else {
                q.word("cast");
                q.in_parens(|q| {
                    q.expression();
                    q.gap();
                    q.words(&["as"]);
                    q.data_type();
                });
            }
        });
    }

    fn data_type(&mut self) {
        self.node("DataType", |q| {
            let name = q.random.pick(&TYPES);
            q.b.token("BareWord", name);
            if !q.must_end() && q.random.percent(30) {
                q.node("DataTypeParameters", |q| q.in_parens(|q| q.items(2, Self::data_type)));
            }
        });
    }

    fn between(&mut self) {
        self.node("BetweenExpression", |q| {
            q.expression();
            q.gap();
            q.words(&["between"]);
            q.expression();
            q.gap();
            q.words(&["and"]);
            q.expression();
        });
    }

    fn is_in(&mut self) {
        self.node("InExpression", |q| {
            q.column_reference();
            q.gap();
            if q.random.percent(30) {
                q.words(&["not"]);
            }
            q.words(&["in"]);
            match q.random.below(3) {
                0 => q.subquery(),
                1 => q.tuple(),
                _ => q.in_parens(|q| q.node("ExpressionList", |q| q.items(3, Self::expression))),
            }
        });
    }

    fn is_null(&mut self) {
        self.node("IsNullExpression", |q| {
            q.expression();
            q.gap();
            q.words(&["is", "not"]);
            q.word("null");
        });
    }

    fn like(&mut self) {
        self.node("LikeExpression", |q| {
            q.column_reference();
            q.gap();
            let word = q.random.pick(&["like", "ilike"]);
            q.words(&[word]);
            q.string();
        });
    }

    fn tuple(&mut self) {
        self.node("TupleExpression", |q| q.in_parens(|q| q.items(3, Self::expression)));
    }

    fn array(&mut self) {
        self.node("ArrayExpression", |q| {
            q.b.token("OpeningSquareBracket", "[");
            q.items(3, Self::expression);
            q.b.token("ClosingSquareBracket", "]");
        });
    }

    fn array_access(&mut self) {
        self.node("ArrayAccessExpression", |q| {
            q.column_reference();
            q.b.token("OpeningSquareBracket", "[");
            q.maybe_gap();
            q.expression();
            q.b.token("ClosingSquareBracket", "]");
        });
    }

    fn map(&mut self) {
        self.node("MapExpression", |q| {
            q.b.token("OpeningCurlyBrace", "{");
            q.items(2, |q| {
                q.string();
                q.maybe_gap();
                q.b.token("Colon", ":");
                q.maybe_gap();
                q.expression();
            });
            q.b.token("ClosingCurlyBrace", "}");
        });
    }

    fn lambda(&mut self) {
        self.node("LambdaExpression", |q| {
            q.name();
            q.maybe_gap();
            q.b.token("Arrow", "->");
            q.maybe_gap();
            q.expression();
        });
    }

    fn interval(&mut self) {
        self.node("IntervalExpression", |q| {
            q.words(&["interval"]);
            q.number();
            q.gap();
            q.b.token("BareWord", "day");
        });
    }

    fn ternary(&mut self) {
        self.node("TernaryExpression", |q| {
            q.expression();
            q.gap();
            q.b.token("QuestionMark", "?");
            q.gap();
            q.expression();
            q.gap();
            q.b.token("Colon", ":");
            q.gap();
            q.expression();
        });
    }

    fn exists(&mut self) {
        self.node("ExistsExpression", |q| {
            q.words(&["exists"]);
            q.subquery();
        });
    }

    fn subquery(&mut self) {
        self.node("SubqueryExpression", |q| {
            q.in_parens(|q| {
                if q.must_end() {
                    q.select_clause();
                } else {
                    q.select();
                }
            });
        });
    }
}
