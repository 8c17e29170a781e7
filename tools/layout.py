#!/usr/bin/env python3
# Prints the data of crates/printer/specs/Layout.antt, the arrays of crates/printer/src/layout.rt, the numbers of words.rt, or the
# lists of specs/Rows.antt, from one description; or checks that they stand in those files. The proofs check each number.
# Usage: layout.py layout | rows | words | lists | check
import os
import sys
WORDS=[
 "", "var ","let ","const ",
 "for (","for await (",
 "_ref","_excluded","_value","_key",
 "ObjectSpread2","Extends","ObjectDestructuringEmpty","ObjectWithoutProperties","ToPropertyKey",
 " = "," ?= ",
 "; ; ","; ",
 "; ; )","; )",")",")",
 "default:\n",":\n",
 "...",", ...",
 ": ","",
 " = ","",
 "function","",
 ";","",
 "",";","","","",
 ")","",
 "","get ","set ","get set ","static ","static get ","static set ","static get set ",
 # after a child, alone and behind a parenthesis
 "",")","\n",")\n",";\n",");\n",") ",")) ",")","))","]",")]","}",")}",
 # simple ones
 "(","{","}","[",",","{\n",", "," "," => ",") {\n","${","`","#"," in "," of ","try "," catch "," finally ","return","class"," extends "," {\n","static {\n","switch (","case ",");",".","[\"","\"]","\"",
]
IDX={}
START=WORDS.index("(")
for i in range(START,len(WORDS)): IDX[WORDS[i]]=i
IDX[""]=0; IDX[")"]=21; IDX["; "]=18; IDX[": "]=27; IDX[" = "]=15; IDX["function"]=31; IDX[";"]=33; IDX["\n"]=WORDS.index("\n"); IDX["]"]=WORDS.index("]"); IDX["for ("]=4; IDX["..."]=25; IDX[", ..."]=26
AFTER=WORDS.index("get ")+7; 
assert WORDS[AFTER]=="" and WORDS[AFTER+1]==")" and WORDS[AFTER+2]=="\n", (AFTER,WORDS[AFTER:AFTER+3])
AFTERS=dict(none=AFTER,line=AFTER+2,directive=AFTER+4,param=AFTER+6,paren=AFTER+8,bracket=AFTER+10,brace=AFTER+12)
# special own codes: (name, formula, text)
SP=["byNote0","byNote4","byNote5","byNote9","byNote14","test","head","default","rest","value","init","function","semicolon","bodiless","rest4","rest1","flags25","flags41","gap32","gap36"]
S={n:100+i for i,n in enumerate(SP)}
M=dict(plain=0,line=1,directive=2,param=3,paren=4,key=5,expr=6,child=7,body=8,head=9,quasi=10,comma=11,value=12)
w=lambda s:IDX[s]
K={} # kind: (name, head, leads{j}, manners{j}, close, tail, text)
def k(kind,name,head=0,leads={},manners={},close=0,tail=0,text=""):
    K[kind]=(name,head,leads,manners,close,tail,text)
k(1,"Program",manners={0:'line'},text="lines of body")
k(2,"Block",w("{\n"),{}, {1:'line'},0,w("}"),"`{⏎`, lines of body, `}`")
k(3,"ExpressionStatement",tail=w(";"),text="`‹expr›;`")
k(4,"Declaration",S['byNote0'],{}, {2:'comma'},0,S['semicolon'],"`var `, `let ` or `const `, declarators; `;` behind it, but not in the head of a loop")
k(5,"Declarator",0,{1:w(" = ")},text="`«id»`, and ` = ‹init›` if it stands")
k(6,"For",w("for ("),{2:w("; "),3:S['test'],4:S['head']},{1:'head',4:'body'},text="`for (`, init, `; `, `‹test›`, `; `, `‹update›`, `)`, loop body; what is absent prints nothing")
k(7,"ForIn",w("for ("),{2:w(" in "),3:w(")")},{1:'head',3:'body'},text="`for (`, left, ` in ‹right›)`, loop body")
k(8,"ForOf",S['byNote4'],{2:w(" of "),3:w(")")},{1:'head',3:'body'},text="the same with ` of `; `for await (` if await is 1")
k(9,"Try",w("try "),{2:w(" catch "),3:w(" finally ")},text="`try «block»`, and if they stand ` catch `, handler and ` finally «finalizer»`")
k(10,"Catch",0,{0:w("(")},{0:'param'},text="`(«param») ` if it stands, then `«body»`")
k(11,"Return",w("return"),{1:w(" ")},{},0,w(";"),"`return`, ` ‹arg›` if it stands, `;`")
k(12,"OtherStatement",0,{2:w("(")},{2:'child'},0,w(");"),"name, `(`, children, `);`")
k(13,"Empty",tail=w(";"),text="`;`")
k(14,"Function",S['function'],{2:w(" "),3:w("("),4:S['rest'],5:w(" ")},{3:'comma',4:'paren'},S['rest4'],S['bodiless'],"`function`, ` «name»` if it stands, parameters, a blank and the body if it stands; a statement without body has `;` behind it")
k(15,"Param",0,{1:w(" = ")},text="`«pattern»`, and ` = ‹default›` if it stands")
k(16,"FunctionBody",w("{\n"),{}, {0:'directive',1:'line'},0,w("}"),"`{⏎`, each directive and `;⏎`, lines of body, `}`")
k(17,"Arrow",w("("),{1:S['rest'],2:w(" => ")},{0:'comma',1:'paren'},S['rest1'],0,"parameters, ` => `, the FunctionBody, or `‹body›`")
k(18,"Reference",text="the name's bytes")
k(19,"Binding",text="the name's bytes")
k(20,"Temporary",S['byNote5'],text="`_ref`, `_excluded`, `_value` or `_key`, and the number in decimal")
k(21,"Helper",S['byNote9'],text="its name")
k(22,"Literal",text="its spelling, or its form in quotes")
k(23,"Template",w("`"),{}, {0:'quasi',1:'expr'},0,w("`"),"`` ` ``, quasi 0, `${‹expr 0›}`, quasi 1, ..; what is left over of either follows in order; `` ` ``")
k(24,"Object",w("{"),{}, {0:'comma'},0,w("}"),"`{`, properties, `}`")
k(25,"Property",S['flags25'],{1:S['value']},{0:'key',1:'value'},text="`get ` if flag 8, `set ` if flag 16, key, then `: ‹value›`; or in method form parameters, a blank and the body")
k(26,"Spread",w("..."),text="`...‹arg›`")
k(27,"Assignment",0,{2:S['byNote14']},text="target, ` = ` or (op 2) ` ?= `, `‹right›`")
k(28,"Sequence",0,{}, {0:'comma'},text="`‹exprs›`")
k(29,"Call",0,{1:w("(")},{1:'comma'},0,w(")"),"`‹callee›(`, args, `)`")
k(30,"Member",text="`‹object›.name`, or `‹object›[\"name\"]`")
k(31,"Parenthesised",w("("),tail=w(")"),text="`(‹expr›)`")
k(32,"Array",w("["),{}, {0:'comma'},S['gap32'],w("]"),"`[`, items, `]`; a hole prints nothing, and if the last item is one a `,` stands behind it")
k(33,"OtherExpression",0,{1:w("(")},{1:'child'},0,w(")"),"name, `(`, children, `)`")
k(34,"ObjectPattern",w("{"),{1:S['rest']},{0:'comma'},0,w("}"),"`{`, properties, then `...` and the rest, `}`")
k(35,"PatternProperty",0,{1:w(": ")},{0:'key'},text="key, `: `, value")
k(36,"ArrayPattern",w("["),{1:S['rest']},{0:'comma'},S['gap36'],w("]"),"as 32, the rest as a last item `...rest`; the `,` of a last hole only where no rest stands")
k(37,"Default",0,{1:w(" = ")},text="left, ` = ‹right›`")
k(38,"StaticKey",text="its name")
k(39,"PrivateKey",w("#"),text="`#` and its bytes")
k(40,"Class",w("class"),{0:w(" "),1:w(" extends "),2:w(" {\n")},{2:'line'},0,w("}"),"`class`, a blank and the name if it stands, ` extends ‹super›` if it stands, ` {⏎`, lines of members, `}`")
k(41,"ClassMember",S['flags41'],{1:S['init']},{0:'key',1:'value'},0,S['semicolon'],"`static ` if flag 2, `get `, `set ` and key as 25; method form; else ` = ‹value›` if it stands, and `;`")
k(42,"StaticBlock",w("static {\n"),{}, {0:'line'},0,w("}"),"`static {⏎`, lines of body, `}`")
k(43,"Switch",w("switch ("),{2:w(") {\n")},{},0,w("}"),"`switch (‹discriminant›) {⏎`, cases one after another, `}`")
k(44,"Case",0,{0:w("case "),1:S['default']},{1:'line'},text="`case ‹test›:⏎`, or `default:⏎` without a test; lines of body")
# statements, and expressions that stand in parentheses; a Function is a statement if its byte is 1, and in parentheses if it is 2
STATEMENTS=[2,3,4,6,7,8,9,11,12,13,43]
WRAPPED=[17,23,24,27,28,29,30,31,32,33,40]
FUNCTION=14
def sort(kind,note):
    if kind not in K: return 0
    n,h,l,m,c,t,_=K[kind]
    statement=kind in STATEMENTS or (kind==FUNCTION and note==1)
    wrapped=kind in WRAPPED or (kind==FUNCTION and note==2)
    return h+128*t+128**2*c+128**3*statement+2*128**3*wrapped
def slot(kind,field):
    if kind not in K: return 0
    n,h,l,m,c,t,_=K[kind]
    return l.get(field,0)+128*M[m.get(field,'plain')]
def sorts(): return [sort(kind,0) for kind in range(64)]+[sort(FUNCTION,note) for note in range(4)]
def slots(): return [slot(kind,field) for kind in range(64) for field in range(8)]
def lows(): return [chunks(WORDS[i])[0] if i<len(WORDS) else 0 for i in range(128)]
def chunks(s):
    b=s.encode(); return [sum(x*256**i for i,x in enumerate(b[o:o+8])) for o in range(0,24,8)]
def bl(s):
    b=s.encode()
    return "[]" if not b else "("+" ∷ ".join(str(x) for x in b)+" ∷ [])"
def show(s): return "nothing" if s=="" else "`"+s.replace("\n","⏎")+"`"
def lst(xs): return "[]" if not xs else "("+" ∷ ".join(str(x) for x in xs)+" ∷ [])"
MN={v:n for n,v in M.items()}
MANNAMES={0:'plain',1:'lines',2:'directives',3:'caught',4:'closed',5:'keyed',6:'filled',7:'called',8:'looped',9:'headed',10:'quoted',11:'parted',12:'valued'}
MANTEXT={0:"nested or plain, by its kind",1:"an item, and a line end behind it",2:"an item, and `;⏎` behind it",3:"`) ` behind it",4:"`)` behind it",5:"`]` behind it if flag 1 stands",6:"`${` before an item, `}` behind it, and the next quasi before both",7:"an item, parted by `, `; a statement between two line ends",8:"a loop body: a blank before a Block, `⏎` before another statement",9:"the head of a loop: a Declaration has no `;`",10:"quasis, which stand among the expressions",11:"items parted by `, `",12:"a value, which may be in method form"}
SPTEXT=[("declares","n % 8","`var `, `let ` or `const `, by the byte"),("for-of","4 + n % 8","`for (`, or `for await (` if the byte is 1"),("stems","5 + n % 8","`_ref`, `_excluded`, `_value` or `_key`, by the byte"),("helpers","9 + n % 8","a helper's name, by the byte"),("assigns","14 + n % 8","` = ` or ` ?= `, by the byte"),
("updates","17 + m / 4 % 2","`; `, twice if the test is absent"),("heads","19 + m / 4 % 4","`)`, and `; ` for each of test and update that is absent behind the last that stands"),("defaults","23 + m % 2","`:⏎`, or `default:⏎` without a test"),("rests","25 + s % 4","`...`, with `, ` before it if the list before has items"),("values","27 + o % 2","`: `, nothing in method form"),("inits","29 + o % 2","` = `, nothing in method form"),("functions","31 + o % 2","`function`, nothing in method form"),("semicolons","33 + s % 4","`;`, nothing if the node was noted"),("bodiless","35 + (n % 8 + 2 * (m / 32 % 2))","`;` if a statement has no body"),("params-end","40 + m / 16 % 2","`)`, unless a rest stands"),("arrow-end","40 + m / 2 % 2","`)`, unless a rest stands"),("getters","42 + n / 8 % 4","`get `, `set `, by the flags"),("members","42 + (n / 2 % 2 * 4 + n / 8 % 4)","`static `, `get `, `set `, by the flags"),("gap","cond (eqb s 2) 68 0","`,` if the last item is a hole"),("gap-rest","cond (eqb s 2) (cond (eqb (m / 2 % 2) 0) 68 0) 0","`,` if the last item is a hole and no rest stands")]
def layout():
    o=[]
    o.append("""-- The layout of every kind as data, in the order of docs/TEXT.md: own bytes, manners of fields, what stands only with a field.
-- tools/layout.py works the numbers out; ⏎ is a line end.
use Rattle.std.specs.Prelude.{ℕ, ◌+◌, ◌-◌, ◌*◌, ◌/◌, ◌%◌, List, [], ◌∷◌, cond, ltb, eqb, get_or}

-- ---- own bytes

-- the texts that a node's own bytes are made of, by number
unfoldable pub words : List (List ℕ)
words =""")
    for i,x in enumerate(WORDS): o.append("    %s ∷  -- %d %s"%(bl(x),i,show(x)))
    o.append("    []\n\nunfoldable pub word : ℕ → List ℕ\nword i = get_or words i []\n")
    o.append("""-- Numbers from 100 on choose a word: by the node's byte n, its bit map m, what was noted of it s, and whether it is in method form o.
-- Three bits of n, two of s and one of o are enough for every tree.
unfoldable pub choices : ℕ → ℕ → ℕ → ℕ → List ℕ
choices n m s o =""")
    for i,(nm,f,t) in enumerate(SPTEXT): o.append("    %s ∷  -- %d %s"%(f if ' ' not in f else "("+f+")",100+i,t))
    o.append("    []\n\nunfoldable pub chosen_word : ℕ → ℕ → ℕ → ℕ → ℕ → ℕ\nchosen_word own n m s o = cond (ltb own 100) own (get_or (choices n m s o) (own - 100) 0)\n")
    o.append("-- ---- manners: how a field that holds nodes is written\n")
    for i in range(13): o.append("-- %s\nabbrev pub %s : ℕ\n%s = %d\n"%(MANTEXT[i],MANNAMES[i],MANNAMES[i],i))
    o.append("""-- ---- the layout

-- own bytes at the head and at the tail of the node, at the end of its list, before each field; and the manner of each field
pub record Line : Type 0 where
  pub head : ℕ
  pub tail : ℕ
  pub close : ℕ
  pub leads : List ℕ
  pub manners : List ℕ

abbrev line : ℕ → List ℕ → List ℕ → ℕ → ℕ → Line
line h ls ms c t = record { head = h; tail = t; close = c; leads = ls; manners = ms }

-- head, before each field, manners, end of the list, tail
unfoldable pub layout : List Line
layout =
    line 0 [] [] 0 0 ∷""")
    for kd in sorted(K):
        n,h,l,m,c,t,tx=K[kd]
        ls=[l.get(j,0) for j in range(max(l)+1)] if l else []
        ms=[MANNAMES[M[m[j]]] if j in m else 'plain' for j in range(max(m)+1)] if m else []
        o.append("    line %d %s %s %d %d ∷  -- %d %s: %s"%(h,lst(ls),lst(ms),c,t,kd,n,tx))
    o.append("""    []

abbrev pub line_of : ℕ → Line
line_of kind = get_or layout kind (record { head = 0; tail = 0; close = 0; leads = []; manners = [] })

unfoldable pub head_of : ℕ → ℕ
head_of kind = (line_of kind).head

unfoldable pub tail_of : ℕ → ℕ
tail_of kind = (line_of kind).tail

unfoldable pub close_of : ℕ → ℕ
close_of kind = (line_of kind).close

unfoldable pub lead_of : ℕ → ℕ → ℕ
lead_of kind j = get_or (line_of kind).leads j 0

unfoldable pub manner_of : ℕ → ℕ → ℕ
manner_of kind j = get_or (line_of kind).manners j 0
""")
    return "\n".join(o)

def number(n):
    return hex(n) if n else "0"


def array(name, kind, numbers):
    lines = ["const %s: [%s; %d] = [" % (name, kind, len(numbers))]
    return "\n".join(lines + ["    %s," % number(n) for n in numbers] + ["];", ""])


def numbers(name, values, to_a_line):
    lines = [" ∷ ".join(number(n) for n in values[i : i + to_a_line]) for i in range(0, len(values), to_a_line)]
    return "%s =\n    %s\n    ∷ []\n" % (name, "\n    ∷ ".join(lines))


def rows():
    return [array("SORTS", "u32", sorts()), array("SLOTS", "u16", slots())]


def arms(i):
    keyed = [(j, chunks(text)[i]) for j, text in enumerate(WORDS)]
    return "    match id {\n%s        _ => 0,\n    }\n" % "".join("        %d => %s,\n" % (j, hex(c)) for j, c in keyed if c)


def words():
    return [array("WORDS", "usize", lows()), arms(1), arms(2)]


def lists():
    return [numbers("sort_numbers", sorts(), 8), numbers("slot_numbers", slots(), 8), numbers("word_numbers", lows(), 4)]


# Each part stands in its file, whatever its lines are: rt fmt breaks them.
def check():
    crate = os.path.join(os.path.dirname(os.path.abspath(__file__)), "..", "crates", "printer")
    parts = {"specs/Layout.antt": [layout()], "specs/Rows.antt": lists(), "src/layout.rt": rows(), "src/words.rt": words()}
    for name in sorted(parts):
        with open(os.path.join(crate, name), encoding="utf-8") as f:
            text = " ".join(f.read().split())
        for part in parts[name]:
            if " ".join(part.split()) not in text:
                sys.exit("%s differs from: %s" % (name, part.split("\n")[0]))
        print("%s: %d parts" % (name, len(parts[name])))


if __name__ == "__main__":
    what = sys.argv[1] if len(sys.argv) > 1 else ""
    if what == "layout":
        sys.stdout.write(layout())
    elif what == "check":
        check()
    elif what in ("rows", "words", "lists"):
        print("\n".join({"rows": rows, "words": words, "lists": lists}[what]()))
    else:
        sys.exit("usage: layout.py layout | rows | words | lists | check")
