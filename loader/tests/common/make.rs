//! Trees that are made by hand, for the limits.

use rest_spread::{Kind, Make};

/// The tree of a Program of these statements.
pub fn program(statements: impl IntoIterator<Item = Make>) -> Vec<u8> {
    Kind::Program.make().list(statements).tree().unwrap()
}

/// A statement that the lowering leaves alone: an OtherStatement with a name of this length and no children.
pub fn other(name: usize) -> Make {
    Kind::OtherStatement.make().text(x(name)).list([])
}

/// `var {...r} = s, {...r} = s, ..`, so many times. A declarator has 16 bytes, and 39 when it is lowered.
pub fn rests(count: usize) -> Make {
    let pattern = Kind::ObjectPattern.make().list([]).node(binding("r"));
    let one = Kind::Declarator.make().node(pattern).node(reference("s"));
    Kind::Declaration.make().byte(1).list(vec![one; count])
}

/// `({...a, ...a, ..})`, so many spreads. Each has 7 bytes, and 12 when it is lowered, the first 16.
pub fn spreads(count: usize) -> Make {
    expression(Kind::Object.make().list(vec![Kind::Spread.make().node(reference("a")); count]))
}

/// `({[TEMPLATE]: a, ...b} = c)`, where the Template has one quasi and among its expressions `{[KEY]: a, ...b} = c`. A
/// Template of one quasi is written twice, as key and as excluded key, so KEY is handed out twice: the list has 63 bytes
/// and twice the name's.
pub fn key_twice(name: usize) -> Make {
    let key = Kind::OtherExpression.make().text(x(name)).list([]);
    let quasi = Kind::Literal.make().byte(1).text("").text("");
    expression(rest_by_key(Kind::Template.make().list([quasi]).list([rest_by_key(key)])))
}

/// `{[key]: a, ...b} = c`
pub fn rest_by_key(key: Make) -> Make {
    let property = Kind::PatternProperty.make().node(key).node(reference("a")).byte(1);
    assign(Kind::ObjectPattern.make().list([property]).node(reference("b")), reference("c"))
}

/// `[...[{...a}]] = b`, which is refused with 5.
pub fn rest_below_array_rest() -> Make {
    let rest = Kind::ObjectPattern.make().list([]).node(reference("a"));
    let inner = Kind::ArrayPattern.make().list([rest]);
    assign(Kind::ArrayPattern.make().list([]).node(inner), reference("b"))
}

/// `{[/q/]: a, ...b} = c`, which is refused with 6.
pub fn key_without_form() -> Make {
    rest_by_key(Kind::Literal.make().byte(6).text("/q/"))
}

/// `{[5]: a, ...b} = c`, the `5` with the form `6`, which is refused with 11.
pub fn other_form() -> Make {
    rest_by_key(Kind::Literal.make().byte(2).text("5").text("6"))
}

/// A Block of these statements, and so many Blocks around it, each in the last.
pub fn nested(count: usize, inner: impl IntoIterator<Item = Make>) -> Make {
    (1..count).fold(Kind::Block.make().list(inner), |block, _| Kind::Block.make().list([block]))
}

/// A Program with so many Blocks in it, each in the last, and `inner` in the innermost.
pub fn blocks(count: usize, inner: impl IntoIterator<Item = Make>) -> Vec<u8> {
    program([nested(count, inner)])
}

/// A Program of these statements and one more, with a name so long that the whole has `length` bytes.
pub fn padded(statements: &[Make], length: usize) -> Vec<u8> {
    let short = program(statements.iter().cloned().chain([other(0)])).len();
    program(statements.iter().cloned().chain([other(length - short)]))
}

/// The statement that an expression is.
pub fn expression(expression: Make) -> Make {
    Kind::ExpressionStatement.make().node(expression)
}

pub fn assign(left: Make, right: Make) -> Make {
    Kind::Assignment.make().byte(1).node(left).node(right)
}

pub fn reference(name: &str) -> Make {
    Kind::Reference.make().text(name)
}

pub fn binding(name: &str) -> Make {
    Kind::Binding.make().text(name)
}

/// A function expression with these statements.
pub fn function(statements: impl IntoIterator<Item = Make>) -> Make {
    let body = Kind::FunctionBody.make().none().list(statements);
    Kind::Function.make().byte(2).none().list([]).none().node(body)
}

fn x(length: usize) -> String {
    "x".repeat(length)
}
