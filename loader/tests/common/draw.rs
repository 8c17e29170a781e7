//! Trees that are drawn by chance, whole ones and damaged ones.

/// Marsaglia's xorshift over 64 bits.
pub struct Chance(u64);

impl Chance {
    pub fn new(seed: u64) -> Self {
        Self(seed.wrapping_mul(0x9e37_79b9_7f4a_7c15) | 1)
    }

    fn next(&mut self) -> u64 {
        self.0 ^= self.0 << 13;
        self.0 ^= self.0 >> 7;
        self.0 ^= self.0 << 17;
        self.0
    }

    /// A number below `end`.
    pub fn below(&mut self, end: usize) -> usize {
        (self.next() >> 16) as usize % end
    }

    fn byte(&mut self) -> u8 {
        self.below(256) as u8
    }

    /// Whether something that happens once in so many times happens now.
    pub fn once_in(&mut self, times: usize) -> bool {
        self.below(times) == 0
    }

    fn pick<'a, T: ?Sized>(&mut self, of: &[&'a T]) -> &'a T {
        of[self.below(of.len())]
    }
}

/// The forms that a node can have: name, kind, fields. A field is the place that it is, or `'` a text, `#` a mark, `+` a
/// number, `=1..3` a byte of these; `*` is a list, `~` one that may have holes, `?` a field that may be absent.
const FORMS: &str = "
Block 2 # statement*
ExpressionStatement 3 # expression
Declaration 4 # =1..3 declarator*
Declarator 5 binding expression?
For 6 # init? expression? expression? statement
ForIn 7 # head expression statement
ForOf 8 # head expression statement =0..1?
Try 9 # block catch? block?
Catch 10 param? block
Return 11 # expression?
OtherStatement 12 # ' child*
Empty 13 #
FunctionDeclaration 14 # =1..1 name? param* binding? body?
FunctionExpression 14 # =2..2 name? param* binding? body?
Param 15 binding expression?
FunctionBody 16 literal*? statement*
Arrow 17 param* binding? arrow_body
Reference 18 ' +?
Binding 19 ' +?
Literal 22 =1..6 ' '?
Formed 22 =1..5 ' '
Template 23 literal* expression*?
Object 24 member*
Property 25 key expression =0..31
Spread 26 expression
Assign 27 =1..1 target expression
Change 27 =2..2 leaf expression
Sequence 28 expression*
Call 29 expression argument*
Member 30 expression '
Parenthesised 31 expression
Array 32 argument~
OtherExpression 33 ' child*
BindObject 34 bind_property* name?
BindProperty 35 key bind_item =0..3
BindArray 36 bind_item~ binding?
BindDefault 37 binding expression
TargetObject 34 target_property* leaf?
TargetProperty 35 key target_item =0..3
TargetArray 36 target_item~ target?
TargetDefault 37 target expression
StaticKey 38 '
PrivateKey 39 '
Class 40 '? expression? class_member*
ClassMember 41 key expression? =0..31
StaticBlock 42 statement*
Switch 43 # expression case*
Case 44 expression? statement*";

/// What may stand at a place, the shortest first. What stands twice is drawn more often.
const PLACES: &str = "
statement Empty ExpressionStatement ExpressionStatement Declaration Declaration Block For ForIn ForOf Try Return \
    OtherStatement FunctionDeclaration Switch
expression Reference Reference Formed Literal Object Object Assign Assign Assign Change Arrow Template Sequence Call \
    Member Parenthesised Array OtherExpression FunctionExpression Class
child Reference Empty Block Object Assign Declaration Spread FunctionDeclaration FunctionExpression
argument Reference Call Spread Object Assign Arrow
key StaticKey StaticKey StaticKey Formed Formed Reference Call PrivateKey Template Literal Assign
init Reference Assign Declaration Declaration
head Reference TargetObject TargetArray Declaration Declaration Member
arrow_body Reference Object Assign FunctionBody
member Spread Spread Property Property
binding Binding BindObject BindObject BindArray
target Reference TargetObject TargetObject TargetObject TargetArray Member
leaf Reference Member Parenthesised OtherExpression
name Binding
bind_property BindProperty
target_property TargetProperty
bind_item Binding BindObject BindArray BindDefault
target_item Reference TargetObject TargetArray TargetDefault
declarator Declarator
block Block
catch Catch
param Param
body FunctionBody
literal Formed
class_member StaticBlock ClassMember ClassMember
case Case";

/// Draws trees by the grammar.
pub struct Grammar {
    forms: Vec<(&'static str, u8, Vec<&'static str>)>,
    places: Vec<(&'static str, Vec<&'static str>)>,
}

struct Growth<'a> {
    chance: &'a mut Chance,
    tree: Vec<u8>,
    mark: u16,
    room: usize,
}

impl Grammar {
    pub fn new() -> Self {
        let forms = FORMS.trim().lines().map(|line| {
            let words: Vec<&str> = line.split(' ').collect();
            (words[0], words[1].parse().unwrap(), words[2..].to_vec())
        });
        let places = PLACES.trim().lines().map(|line| {
            let words: Vec<&str> = line.split_whitespace().collect();
            (words[0], words[1..].to_vec())
        });
        Self { forms: forms.collect(), places: places.collect() }
    }

    /// A tree of some `room` bytes, seldom more.
    pub fn tree(&self, chance: &mut Chance, room: usize) -> Vec<u8> {
        let mut growth = Growth { chance, tree: vec![1, 1, 0, 0], mark: 0, room };
        let mut count: u16 = 0;
        while growth.tree.len() < room {
            let levels = if growth.chance.once_in(8) { 127 } else { 4 + growth.chance.below(12) };
            self.node(&mut growth, "statement", levels);
            count += 1;
        }
        growth.tree[2..4].copy_from_slice(&count.to_le_bytes());
        growth.tree
    }

    fn node(&self, growth: &mut Growth, place: &str, levels: usize) {
        let (_, forms) = self.places.iter().find(|(name, _)| *name == place).expect(place);
        // The shortest node of a place has at most two levels.
        let small = levels < 3 || growth.tree.len() > growth.room;
        let form = if small { forms[0] } else { growth.chance.pick(forms) };
        let (_, kind, fields) = self.forms.iter().find(|(name, ..)| *name == form).expect(form);
        let stands: Vec<bool> =
            fields.iter().map(|field| !field.ends_with('?') || !small && growth.chance.once_in(2)).collect();
        growth.tree.push(*kind);
        growth.tree.push(stands.iter().rev().fold(0, |map, &bit| map << 1 | u8::from(bit)));
        for (field, _) in fields.iter().zip(stands).filter(|(_, stands)| *stands) {
            self.field(growth, field.trim_end_matches('?'), levels - 1, small);
        }
    }

    fn field(&self, growth: &mut Growth, field: &str, levels: usize, small: bool) {
        match (&field[..1], &field[field.len() - 1..]) {
            ("#", _) => {
                growth.mark += 1;
                growth.tree.extend(growth.mark.to_le_bytes());
            }
            ("+", _) => {
                let two = [growth.chance.byte() % 4, 0];
                growth.tree.extend(two);
            }
            ("'", _) => {
                let length = growth.chance.below(3);
                growth.tree.extend([length as u8, 0]);
                for _ in 0..length {
                    let letter = b'a' + growth.chance.byte() % 6;
                    growth.tree.push(letter);
                }
            }
            ("=", _) => {
                let (low, high) = field[1..].split_once("..").unwrap();
                let (low, high): (usize, usize) = (low.parse().unwrap(), high.parse().unwrap());
                let byte = low + growth.chance.below(high + 1 - low);
                growth.tree.push(byte as u8);
            }
            (_, end @ ("*" | "~")) => {
                let count = if small { 0 } else { growth.chance.below(4) };
                growth.tree.extend([count as u8, 0]);
                for _ in 0..count {
                    if end == "~" && growth.chance.once_in(8) {
                        growth.tree.push(0);
                    } else {
                        self.node(growth, &field[..field.len() - 1], levels);
                    }
                }
            }
            _ => self.node(growth, field, levels),
        }
    }
}

/// Damages a tree in one place, or now and then in up to four. Pieces are taken from `other`.
pub fn damage(chance: &mut Chance, tree: &mut Vec<u8>, other: &[u8]) {
    let times = if chance.once_in(3) { 1 + chance.below(4) } else { 1 };
    for _ in 0..times {
        if tree.is_empty() {
            tree.push(chance.byte());
        }
        let at = chance.below(tree.len());
        let some = (chance.below(12) + 1).min(tree.len() - at);
        match chance.below(9) {
            0 => tree[at] = chance.byte(),
            1 => tree[at] ^= 1 << chance.below(8),
            2 => tree[at] = tree[at].wrapping_add(1),
            3 => tree[at] = tree[at].wrapping_sub(1),
            4 => tree.truncate(at),
            5 => drop(tree.drain(at..at + some)),
            6 => tree.insert(at, chance.byte()),
            7 => {
                let from = chance.below(tree.len() - some + 1);
                tree.copy_within(from..from + some, at);
            }
            _ if !other.is_empty() => {
                let from = chance.below(other.len());
                let piece = &other[from..other.len().min(from + some)];
                tree.splice(at..at + some, piece.iter().copied());
            }
            _ => tree.push(0),
        }
    }
}
