//! Small files for rules that random files seldom reach. Each asks all its expressions and
//! definitions; the comments say what to look for.

use index_file::load::load;
use index_file::records::{Index, Module, Question, TypeExpr};

use super::Fixed;

/// Records behind `M m`, with blanks for tabs.
const CASES: &[(&str, &str)] = &[
    // The field's type is resolved in the scope of the struct literal.
    (
        "scope of a field context",
        "S - module\nS 0 block\nT custom A\nT array 0 2\nD 0 A 0 1 0 1 struct\n\
         D 0 P 0 1 0 1 struct p 1\nD 1 A 0 1 0 1 struct\nE 1 0 1 - - plain - - slit P 0 1\n\
         E 0 1 2 - - field 0 p arr\nE 0 2 3 - - plain - - slit P 0 1\nE 1 3 4 - - field 2 p arr\n",
    ),
    // The name's position counts, not the expression's.
    (
        "position of a struct literal",
        "S - module\nT custom A\nT u32\nD 0 A 0 1 0 1 struct\nD 0 a 0 1 10 11 param 0\n\
         D 0 P 0 1 0 1 struct p 1\nD 0 P 0 1 10 11 let 1 - -\nE 0 20 21 - - plain - - slit a 5 6\n\
         E 0 0 1 - - plain - - slit a 10 11\nE 0 30 31 - - plain - - slit P 5 6\n\
         E 0 31 32 - - field 2 p lit -\nE 0 32 33 - - plain - - slit P 15 16\n\
         E 0 33 34 - - field 4 p lit -\nE 0 34 35 - - field 2 q lit -\n",
    ),
    // 6 in the count before 7 in the type, 7 in the parameter before 6 or 8 elsewhere.
    (
        "order within new and signatures",
        "S - module\nT custom A\nT u32\nD 0 A 0 1 0 1 struct p 0\nD 0 f 0 1 0 1 fn 1 a 0\n\
         D 0 g 0 1 0 1 fn 0 a 1\nE 0 0 1 - - plain - - un ! -\nE 0 1 2 - - plain - - new 0 0\n\
         E 0 2 3 - - plain - - new 1 0\nE 0 3 4 - - plain - - new 0 -\n\
         E 0 4 5 - 1 plain - - ident f\nE 0 5 6 - - arg 4 0 un ! -\nE 0 6 7 - - arg 4 0 bool\n",
    ),
    // Index, tuple index, member and callee are asked without context.
    (
        "no context below",
        "S - module\nT u32\nT array 0 7\nT tuple 0\nT tuple 0 0\nE 0 0 1 - - plain - - arr\n\
         E 0 1 2 - - plain - - lit -\nE 0 2 3 - - plain - - index 0 1\n\
         E 0 3 4 - - plain - - tuple 1\nE 0 4 5 - - plain - - tidx 3 0\n\
         E 0 5 6 - - plain - - tidx 3 1\nE 0 6 7 - - plain - - rep 1 3\n\
         E 0 7 8 - - plain - - arr 1 1\nE 0 8 9 - - plain - - index 7 1\n\
         E 0 9 10 - - plain - - member 3 x\nE 0 10 11 - - plain - - call 3\n\
         E 0 11 12 - - plain - - paren 1\nE 0 12 13 - - plain - - un - 11\n\
         E 0 13 14 - - plain - - un ! 11\nE 0 14 15 - - return - - paren 1\n\
         E 0 15 16 - - plain - - tuple 1 1\nE 0 16 17 - - plain - - arr 3 3\n",
    ),
    // Literals beside u32, all operators' forms.
    (
        "literals in operations",
        "S - module\nT u32\nD 0 y 0 1 0 1 param 0\nE 0 0 1 - 0 plain - - ident y\n\
         E 0 1 2 - - plain - - lit -\nE 0 2 3 - - plain - - bin - 0 1\n\
         E 0 3 4 - - plain - - bin - 1 0\nE 0 4 5 - - plain - - bin % 1 0\n\
         E 0 5 6 - - plain - - bin != 1 0\nE 0 6 7 - - plain - - bin == 1 0\n\
         E 0 7 8 - - plain - - bin * 1 0\nE 0 8 9 - - plain - - bin < 1 0\n\
         E 0 9 10 - - plain - - bin < 0 1\nE 0 10 11 - - plain - - bin & 0 1\n\
         E 0 11 12 - - plain - - bin + 1 1\nE 0 12 13 - - plain - - lit felt\n\
         E 0 13 14 - - plain - - bin + 12 0\nE 0 14 15 - - plain - - bin + 1 12\n\
         E 0 15 16 - - plain - - bin && 0 0\nE 0 16 17 - - plain - - lit u8\n\
         E 0 17 18 - - plain - - bin + 16 0\nE 0 18 19 - - plain - - bin + 0 16\n\
         E 0 19 20 - - plain - - bin + 2 1\nE 0 20 21 - - plain - - bin == 1 5\n",
    ),
    // Which children are asked: 7 shows it.
    (
        "who is asked",
        "S - module\nT u32\nD 0 f 0 1 0 1 fn 0 a 0\nD 0 r 0 1 0 1 const - 1\n\
         E 0 0 1 - 0 plain - - ident f\nE 0 1 2 - 1 plain - - ident r\n\
         E 0 2 3 - - plain - - lit -\nE 0 3 4 - - plain - - bool\nE 0 4 5 - - plain - - un ! -\n\
         E 0 5 6 - - plain - - tuple - 1\nE 0 6 7 - - plain - - tuple 4 1\n\
         E 0 7 8 - - plain - - tuple 1 4\nE 0 8 9 - - plain - - call 0 2 1\n\
         E 0 9 10 - - plain - - call 0 2 -\nE 0 10 11 - - plain - - call 2 1\n\
         E 0 11 12 - - plain - - call 0\nE 0 12 13 - - plain - - arr 3 2 1\n\
         E 0 13 14 - - plain - - arr 3 3 1\nE 0 14 15 - - plain - - arr 3 - 1\n\
         E 0 15 16 - - plain - - index 3 1\nE 0 16 17 - - plain - - index - 1\n\
         E 0 17 18 - - plain - - new 0 1\nE 0 18 19 - - plain - - bin + 4 1\n\
         E 0 19 20 - - plain - - bin + 1 4\nE 0 20 21 - - plain - - bin + 1 -\n\
         E 0 21 22 - - plain - - call - 1\nE 0 22 23 - - plain - - member 1 x\n",
    ),
    // Compatibility of parts.
    (
        "parts in arrays",
        "S - module\nT u32\nT felt\nT custom missing\nT ptr 0\nT ptr 1\nT ptr 2\nT tuple 0 2\n\
         T tuple 0 1\nT tuple 0\nT array 0 2\nT array 2 2\nT array 0 3\nT tuple 3 10\nT tuple 5 9\n\
         E 0 0 1 - - plain - - cast 3\nE 0 1 2 - - plain - - cast 4\nE 0 2 3 - - plain - - cast 5\n\
         E 0 3 4 - - plain - - cast 6\nE 0 4 5 - - plain - - cast 7\nE 0 5 6 - - plain - - cast 8\n\
         E 0 6 7 - - plain - - cast 9\nE 0 7 8 - - plain - - cast 10\nE 0 8 9 - - plain - - cast 11\n\
         E 0 9 10 - - plain - - cast 12\nE 0 10 11 - - plain - - cast 13\n\
         E 0 11 12 - - plain - - arr 0 1\nE 0 12 13 - - plain - - arr 0 2\n\
         E 0 13 14 - - plain - - arr 2 0 1\nE 0 14 15 - - plain - - arr 3 4\n\
         E 0 15 16 - - plain - - arr 4 3\nE 0 16 17 - - plain - - arr 3 5\n\
         E 0 17 18 - - plain - - arr 6 7\nE 0 18 19 - - plain - - arr 7 8\n\
         E 0 19 20 - - plain - - arr 6 8\nE 0 20 21 - - plain - - arr 9 10\n\
         E 0 21 22 - - plain - - arr 0 3\n",
    ),
    // Unknown, and constants without anything.
    (
        "unknown",
        "S - module\nT bool\nD 0 u 0 1 0 1 let - - -\nD 0 e 0 1 0 1 const - -\n\
         D 0 t 0 1 0 1 const 0 0\nD 0 l 0 1 0 1 loop\nE 0 0 1 - 0 plain - - ident u\n\
         E 0 1 2 - - plain - - lit -\nE 0 2 3 - - plain - - bin + 0 1\n\
         E 0 3 4 - - plain - - bin % 0 0\nE 0 4 5 - - plain - - un ! 0\n\
         E 0 5 6 - - plain - - un - 0\nE 0 6 7 - 1 plain - - ident e\n\
         E 0 7 8 - 3 plain - - ident l\nE 0 8 9 - - plain - - arr 0 1\n\
         E 0 9 10 - - plain - - arr 1 0\nE 0 10 11 - - plain - - member 0 x\n",
    ),
    // Destructuring.
    (
        "paths",
        "S - module\nT u32\nT bool\nT tuple 1 0\nT tuple 0 2\nD 0 p 0 1 0 1 param 3\n\
         D 0 a 0 1 0 1 let 1 0 0\nD 0 b 0 1 0 1 let - - 0 0\nD 0 c 0 1 0 1 let - - 0 1 1\n\
         D 0 d 0 1 0 1 let - - 0 2\nD 0 e 0 1 0 1 let 0 - 0 0 0\nD 0 f 0 1 0 1 let - 0 0 1\n\
         E 0 0 1 - 0 plain - - ident p\n",
    ),
    // Position-aware lookup: starts, initializers, shadowing, parents; constants aren't skipped.
    (
        "names at positions",
        "S - module\nS 0 block\nT u32\nT bool\nT felt\nD 0 a 0 1 5 20 let 0 0 -\n\
         D 0 a 0 1 30 40 let 1 - -\nD 1 a 0 1 10 12 const 2 1\nD 0 k 0 1 5 9 const - 7\n\
         E 0 10 14 - - plain - - ident a\nE 0 10 15 - - plain - - ident a\n\
         E 0 9 12 - - plain - - ident a\nE 0 29 30 - - plain - - ident a\n\
         E 0 30 31 - - plain - - ident a\nE 1 9 10 - - plain - - ident a\n\
         E 1 10 11 - - plain - - ident a\nE 0 6 7 - - plain - - ident k\n\
         E 0 4 5 - - plain - - ident k\nE 0 5 6 - - plain - - ident a\n",
    ),
    // The first function that is around; a nearer one counts no more.
    (
        "returns",
        "S - module\nS 0 function\nS 1 block\nS 0 function\nT u32\nT felt\nT tuple 0 1\nT array 0 2\n\
         D 1 inner 0 1 0 1 fn 0\nD 0 outer 0 1 0 1 fn 1\nD 3 other 0 1 0 1 fn 2\n\
         E 0 0 1 - - return - - lit -\nE 1 1 2 - - return - - lit -\nE 2 2 3 - - return - - lit -\n\
         E 3 3 4 - - return - - lit -\nE 3 4 5 - - return - - tuple 0 1\n\
         E 2 5 6 - - return - - paren 1\nE 2 6 7 - - return - - un - 1\n",
    ),
    // Assignments, arguments, conditions.
    (
        "origins",
        "S - module\nT u32\nT bool\nT array 0 2\nD 0 y 0 1 0 1 param 0\nD 0 f 0 1 0 1 fn 1 a 0 b 1\n\
         D 0 s 0 1 0 1 struct\nD 0 z 0 1 0 1 param 2\nE 0 0 1 - 0 plain - - ident y\n\
         E 0 1 2 - - assign 0 - lit -\nE 0 2 3 - - assign 0 - lit u8\n\
         E 0 3 4 - - assign 0 - paren 1\nE 0 4 5 - - assign 1 - lit -\n\
         E 0 5 6 - 3 plain - - ident z\nE 0 6 7 - - assign 5 - arr\n\
         E 0 7 8 - 1 plain - - ident f\nE 0 8 9 - - plain - - paren 7\n\
         E 0 9 10 - - arg 7 0 lit -\nE 0 10 11 - - arg 7 1 lit -\nE 0 11 12 - - arg 7 2 lit -\n\
         E 0 12 13 - - arg 8 0 lit -\nE 0 13 14 - 2 plain - - ident s\n\
         E 0 14 15 - - arg 13 0 lit -\nE 0 15 16 - - plain - - ident f\n\
         E 0 16 17 - - arg 15 0 lit -\nE 0 17 18 - - cond - - lit -\nE 0 18 19 - 1 cond - - bool\n\
         E 0 19 20 - 1 plain - - bool\nE 0 20 21 - - arg 19 0 lit -\n\
         E 0 21 22 - - assign 21 - lit -\nE 0 22 23 - - field 0 x lit -\n",
    ),
    // Suffix, then expected type, then context.
    (
        "what a literal takes",
        "S - module\nT u32\nT felt\nT bool\nT custom R\nT array 3 0\nT array 0 0\nT array 0 3\n\
         D 0 R 0 1 0 1 struct r 3\nE 0 0 1 1 - plain - - lit -\nE 0 1 2 2 - plain - - lit -\n\
         E 0 2 3 3 - plain - - lit -\nE 0 3 4 3 - plain - - lit u32\nE 0 4 5 0 - plain - - lit felt\n\
         E 0 5 6 0 - plain - - lit bool\nE 0 6 7 4 - plain - - arr\nE 0 7 8 5 - plain - - arr\n\
         E 0 8 9 6 - plain - - arr\nE 0 9 10 5 - cond - - arr\nE 0 10 11 0 - plain - - arr\n\
         E 0 11 12 6 - plain - - arr 0 1\n",
    ),
    // Names: nearest scope, last definition, not only structs' own names.
    (
        "custom names",
        "S - module\nS 0 block\nS 1 block\nT custom A\nT custom B\nT custom v\nT custom felt\n\
         T ptr 0\nT array 4 2\nD 0 A 0 1 0 1 struct\nD 0 A 0 1 0 1 struct p 0\n\
         D 1 A 0 1 0 1 let - - -\nD 2 A 0 1 0 1 struct\nD 0 B 0 1 0 1 const 1 -\n\
         D 0 v 0 1 0 1 param 0\nD 2 v 0 1 0 1 fn 0 a 0\nE 0 0 1 - - plain - - cast 0\n\
         E 1 1 2 - - plain - - cast 0\nE 2 2 3 - - plain - - cast 0\nE 2 3 4 - - plain - - cast 2\n\
         E 1 4 5 - - plain - - cast 2\nE 2 5 6 - - plain - - cast 5\nE 0 6 7 - - plain - - cast 1\n\
         E 2 7 8 - - plain - - slit v 0 0\n",
    ),
    // The built-in name.
    (
        "assert",
        "S - module\nT u32\nD 0 assert 0 1 0 1 fn 0 x 0\nD 0 r 0 1 0 1 const - 1\n\
         E 0 0 1 - 0 plain - - ident assert\nE 0 1 2 - 1 plain - - ident r\n\
         E 0 2 3 - - arg 0 0 lit -\nE 0 3 4 - - plain - - call 0 1\nE 0 4 5 - - plain - - paren 0\n\
         E 0 5 6 - - plain - - call 4 2\nE 0 6 7 - - plain - - member 0 x\n",
    ),
    // Other modules.
    (
        "uses",
        "S - module\nS 0 block\nT custom A\nT u32\nD 0 A 0 1 0 1 use n A\nD 0 f 0 1 0 1 use n f\n\
         D 0 c 0 1 0 1 use n c\nD 0 x 0 1 0 1 use n hidden\nD 0 y 0 1 0 1 use nowhere A\n\
         D 0 self 0 1 0 1 use m self\nD 0 z 0 1 0 1 use m A\nE 0 0 1 - 1 plain - - ident f\n\
         E 0 1 2 - - arg 0 0 lit -\nE 0 2 3 - - plain - - call 0 1\nE 0 3 4 - - plain - - slit A 0 0\n\
         E 0 4 5 - - plain - - member 3 p\nE 0 5 6 - - field 3 p lit -\nE 0 6 7 - 2 plain - - ident c\n\
         M n\nS - module\nS 0 block\nT u32\nT bool\nD 0 A 0 1 0 1 loop\nD 0 A 0 1 0 1 struct p 0\n\
         D 0 f 0 1 0 1 fn 1 a 0\nD 0 c 0 1 0 1 use m A\nD 1 hidden 0 1 0 1 struct\n",
    ),
    // Every node without one of its children: 6, or an answer.
    (
        "missing children",
        "S - module\nT u32\nE 0 0 1 - - plain - - lit u32\nE 0 1 2 - - plain - - un ! -\n\
         E 0 2 3 - - plain - - un - -\nE 0 3 4 - - plain - - bin + - 0\n\
         E 0 4 5 - - plain - - bin + 0 -\nE 0 5 6 - - plain - - tidx - 0\n\
         E 0 6 7 - - plain - - arr - 0\nE 0 7 8 - - plain - - arr 0 -\n\
         E 0 8 9 - - plain - - rep - 3\nE 0 9 10 - - plain - - call -\n\
         E 0 10 11 - - plain - - call - 0\nE 0 11 12 - - plain - - member - x\n\
         E 0 12 13 - - plain - - index - 0\nE 0 13 14 - - plain - - index 0 -\n\
         E 0 14 15 - - plain - - tuple 0 -\nE 0 15 16 - - plain - - tuple -\n\
         E 0 16 17 - - plain - - new 0 -\nE 0 17 18 - - plain - - paren -\n\
         E 0 18 19 - - plain - - bin && - -\nE 0 19 20 - - plain - - arr -\n",
    ),
    // A definition's types are resolved in its own scope, where the name means another struct.
    (
        "scopes of definitions",
        "S - module\nS 0 block\nT custom A\nT array 0 0\nT ptr 0\nD 0 A 0 1 0 1 struct\n\
         D 1 A 0 1 0 1 struct\nD 1 c 0 1 0 1 const 0 -\nD 1 l 0 1 0 1 let 0 - -\n\
         D 1 p 0 1 0 1 param 0\nD 1 f 0 1 0 1 fn 0 a 1\nD 1 s 0 1 0 1 struct q 2\n\
         E 1 0 1 - 5 plain - - ident f\nE 1 1 2 - - plain - - call 0\n\
         E 1 2 3 - - arg 0 0 arr\nE 1 3 4 - - plain - - slit s 3 4\n\
         E 1 4 5 - - plain - - member 3 q\nE 1 5 6 1 - plain - - arr\nE 0 6 7 1 - plain - - arr\n\
         E 1 7 8 - - plain - - cast 2\nE 0 8 9 - - plain - - cast 2\nE 1 9 10 - - plain - - new 0 1\n\
         E 0 10 11 - - plain - - new 0 1\nE 1 11 12 - - return - - cast 0\n",
    ),
    // The struct of a field's context is looked up in the literal's scope, not in the field's.
    (
        "struct of a field context",
        "S - module\nS 0 block\nT u32\nT felt\nD 0 P 0 1 0 1 struct p 0\n\
         D 1 P 0 1 0 1 struct p 1\nE 0 0 1 - - plain - - slit P 0 1\nE 1 1 2 - - field 0 p lit -\n\
         E 1 2 3 - - plain - - slit P 2 3\nE 0 3 4 - - field 2 p lit -\n",
    ),
    // A literal's expected type is resolved in its scope: the inner R holds itself.
    (
        "scope of an expected type",
        "S - module\nS 0 block\nT custom R\nT array 0 0\nD 0 R 0 1 0 1 struct\n\
         D 1 R 0 1 0 1 struct r 0\nE 0 0 1 0 - plain - - lit -\nE 1 1 2 0 - plain - - lit -\n\
         E 0 2 3 1 - plain - - arr\nE 1 3 4 1 - plain - - arr\nE 1 4 5 0 - plain - - lit u32\n",
    ),
    // Which operand gets the context: numbers in parentheses take it.
    (
        "contexts of operands",
        "S - module\nT u32\nT felt\nE 0 0 1 - - plain - - lit -\nE 0 1 2 - - plain - - paren 0\n\
         E 0 2 3 - - plain - - un - 0\nE 0 3 4 - - plain - - bin + 0 1\n\
         E 0 4 5 - - plain - - bin * 0 2\nE 0 5 6 - - plain - - bin == 0 1\n\
         E 0 6 7 - - plain - - bin != 0 2\nE 0 7 8 - - plain - - bin - 1 2\n\
         E 0 8 9 - - plain - - bin + 1 0\nE 0 9 10 - - plain - - bin % 1 2\n\
         E 0 10 11 - - plain - - bin < 1 0\nE 0 11 12 - - plain - - bin / 0 1\n\
         E 0 12 13 - - plain - - un - 3\nE 0 13 14 - - plain - - paren 8\n\
         E 0 14 15 - - plain - - bin + 1 1\nE 0 15 16 - - plain - - bin ^ 0 0\n",
    ),
    // An argument's context decides whether the array's third element is asked, which gives 6.
    (
        "contexts of arguments",
        "S - module\nT u32\nT array 0 3\nT felt\nD 0 f 0 1 0 1 fn 0 a 1 b 2\nD 0 y 0 1 0 1 param 0\n\
         D 0 g 0 1 0 1 fn 0 a 2 b 1\nE 0 0 1 - 0 plain - - ident f\nE 0 1 2 - - plain - - lit -\n\
         E 0 2 3 - 1 plain - - ident y\nE 0 3 4 - - plain - - un ! -\n\
         E 0 4 5 - - plain - - arr 1 2 3\nE 0 5 6 - - plain - - call 0 4\n\
         E 0 6 7 - - plain - - call 0 1 4\nE 0 7 8 - - plain - - call 0 1 1 4\n\
         E 0 8 9 - 2 plain - - ident g\nE 0 9 10 - - plain - - call 8 4\n\
         E 0 10 11 - - plain - - call 8 1 4\nE 0 11 12 - - arg 0 0 arr 1 2 3\n\
         E 0 12 13 - - arg 0 1 arr 1 2 3\nE 0 13 14 - - arg 8 1 arr 1 2 3\n",
    ),
    // An object, callee, array or tuple is asked without context: with [u32;3] it would be 6.
    (
        "no context for parts",
        "S - module\nT u32\nT array 0 3\nT felt\nT tuple 0 2\nD 0 y 0 1 0 1 param 0\n\
         E 0 0 1 - - plain - - lit -\nE 0 1 2 - 0 plain - - ident y\nE 0 2 3 - - plain - - un ! -\n\
         E 0 3 4 - - plain - - arr 0 1 2\nE 0 4 5 - - plain - - member 3 x\n\
         E 0 5 6 - - plain - - call 3\nE 0 6 7 - - plain - - index 3 0\n\
         E 0 7 8 - - plain - - tidx 3 0\nE 0 8 9 - - plain - - tuple 0 0\n\
         E 0 9 10 - - plain - - tidx 8 0\nE 0 10 11 - - plain - - tidx 8 1\n\
         E 0 11 12 - - plain - - paren 3\nE 0 12 13 - - plain - - paren 8\n",
    ),
    // Of two fields of one name the first counts, of two parameters the place.
    (
        "one name twice",
        "S - module\nT u32\nT bool\nT array 0 0\nT array 1 0\nD 0 P 0 1 0 1 struct p 0 p 1 q 2 q 3\n\
         D 0 f 0 1 0 1 fn 0 a 2 a 3\nE 0 0 1 - - plain - - slit P 0 1\n\
         E 0 1 2 - - plain - - member 0 p\nE 0 2 3 - - plain - - member 0 q\n\
         E 0 3 4 - - field 0 p lit -\nE 0 4 5 - - field 0 q arr\nE 0 5 6 - 1 plain - - ident f\n\
         E 0 6 7 - - arg 5 0 arr\nE 0 7 8 - - arg 5 1 arr\nE 0 8 9 - - arg 5 2 arr\n",
    ),
];

/// At most so many questions in one file.
const QUESTIONS: usize = 250;

pub fn files() -> Vec<Fixed> {
    let files = CASES.iter().map(|(name, records)| {
        let text = format!("index 1\nM m\n{records}").replace(' ', "\t");
        let mut index = load(text.as_bytes())
            .unwrap_or_else(|refusal| panic!("{name} is refused: {refusal:?}"));
        ask_everything(&mut index);
        Fixed {
            name: format!("corner-{}", name.replace(' ', "-")),
            text: index.to_text(),
        }
    });
    files.collect()
}

/// Asks each definition, each expression and each type in each scope, and expressions with each type
/// as context; of these as many as there is room for, evenly chosen.
fn ask_everything(index: &mut Index) {
    let mut with_context = Vec::new();
    let mut questions = Vec::new();
    for (number, module) in index.modules.iter().enumerate() {
        questions.extend(plain_questions(number, module));
        with_context.extend(context_questions(number, module));
    }
    let room = QUESTIONS - questions.len();
    let step = with_context.len().div_ceil(room).max(1);
    questions.extend(with_context.into_iter().step_by(step));
    index.questions = questions;
}

fn plain_questions(module: usize, records: &Module) -> Vec<Question> {
    let definitions = 0..records.definitions.len();
    let definitions = definitions.map(|definition| Question::Def { module, definition });
    let expressions = 0..records.expressions.len();
    let expressions = expressions.map(|expression| Question::Expr {
        module,
        expression,
        context: None,
    });
    let mut questions: Vec<Question> = definitions.chain(expressions).collect();
    for (ty, record) in records.types.iter().enumerate() {
        if matches!(record, TypeExpr::Felt | TypeExpr::Bool | TypeExpr::U32) {
            continue;
        }
        let scopes = 0..records.scopes.len();
        questions.extend(scopes.map(|scope| Question::Type { module, ty, scope }));
    }
    questions
}

fn context_questions(module: usize, records: &Module) -> Vec<Question> {
    let mut questions = Vec::new();
    for expression in 0..records.expressions.len() {
        let types = 0..records.types.len();
        questions.extend(types.map(|ty| Question::Expr {
            module,
            expression,
            context: Some(ty),
        }));
    }
    questions
}
