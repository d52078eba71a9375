"""Random goals over the predicates of docs/PREDICATES.md, in a syntax that is read alike here and by SWI-Prolog."""
import random

PROGRAM = (
    "p(a). p(b). p(1). q(a,1). q(b,2). q(a,3). r(X) :- p(X), \\+ X = b. r(z) :- !. r(w). plus3(X,A,B) :- B is A+X.\n"
)
VARIABLES = ["X", "Y", "Z", "W"]
ATOMS = ["a", "b", "abc", "foo", "'hello world'", "'1'", "'-7'", "''", "'0x1F'", "é"]
NUMBERS = [0, 1, 2, 3, -1, -2, 5, 7, 10, 97, 98, 127, 128, -128, 1000]
TESTS = ["var", "nonvar", "atom", "integer", "number", "atomic", "compound", "callable", "is_list", "ground"]
INFIX = ["+", "-", "*", "//", "mod", "rem", "div", "/\\", "\\/", ">>", "<<", "**", "^"]

# S is a variable, an atom or a number, T a term, V a variable, L a list, C one of characters, O one of codes, E an expression.
PRIMITIVES = [
    "T = T", "T == T", "T \\= T", "T @< T", "T @>= T", "unify_with_occurs_check(T,T)", "compare(V,T,T)", "functor(T,S,S)",
    "arg(1,T,T)", "arg(2,T,T)", "arg(S,T,T)", "T =.. V", "V =.. L", "copy_term(T,T)", "term_variables(T,V)", "V is E",
    "E =:= E", "E < E", "E >= E", "atom_length(S,S)", "atom_concat(S,S,S)", "sub_atom(abc,S,S,S,S)", "sub_atom(S,V,V,V,S)",
    "atom_chars(S,V)", "atom_chars(V,C)", "atom_codes(V,O)", "char_code(V,97)", "number_codes(V,O)", "number_chars(V,C)",
    "atom_number(S,V)", "msort(L,V)", "sort(L,V)", "keysort([(b-T),(a-T),(b-T)],V)", "append(L,V,V)", "append(V,V,L)",
    "member(S,L)", "memberchk(T,L)", "length(V,2)", "length([a|V],3)", "length(L,V)", "reverse([a,V,b],V)",
    "between(1,3,V)", "between(0,S,S)", "succ(S,S)", "nth0(V,[a,b,c],S)", "nth1(S,[a,b,c],V)", "select(S,[a,b,a],V)",
    "last([a,b|L],V)", "sum_list([1,2,S],V)", "numlist(1,3,V)", "maplist(succ,[1,2],V)", "maplist(p,[V,V])",
    "foldl(plus3,[1,2],0,V)", "include(p,L,V)", "exclude(p,L,V)", "p(S)", "q(S,S)", "r(S)", "zap(S)", "fail", "true",
]
# G is a goal.
CONTROL = [
    "(G,G)", "(G;G)", "(G->G;G)", "\\+(G)", "catch(G,error(X,_),G)", "catch(G,T,G)", "throw(T)", "findall(T,G,V)", "bagof(T,G,V)",
    "setof(T,G,V)", "setof(V,V^(G),V)", "once((G))", "ignore((G))", "forall(G,G)", "(G,!)", "call((G))", "call(=,T,T)",
    "call(p,V)", "call(q(V),V)", "call(S)",
]


def simple():
    return random.choice([random.choice(VARIABLES), random.choice(ATOMS), str(random.choice(NUMBERS))])


def listed(element):
    elements = [element() for _ in range(random.randint(0, 3))]
    tail = random.choice(["", "", "", "|" + random.choice(VARIABLES)]) if elements else ""
    return "[" + ",".join(elements) + tail + "]"


def term(depth=2):
    if depth == 0 or random.random() < 0.5:
        return simple()
    if random.random() < 0.4:
        return listed(lambda: term(depth - 1))
    arguments = ",".join(term(depth - 1) for _ in range(random.randint(1, 3)))
    return f"{random.choice('fgh')}({arguments})"


def expression(depth=2):
    if depth == 0 or random.random() < 0.4:
        return str(random.choice(NUMBERS)) if random.random() < 0.9 else simple()
    left, right = expression(depth - 1), expression(depth - 1)
    name = random.choice(INFIX + ["max", "min", "abs", "sign"])
    if name in INFIX:
        return f"({left} {name} {right})"
    return f"{name}({left},{right})" if name in ("max", "min") else f"{name}({left})"


def filled(form, depth):
    """The form with a random text for each letter that stands for one."""
    make = {
        "S": simple,
        "T": term,
        "V": lambda: random.choice(VARIABLES),
        "L": lambda: listed(lambda: term(1)),
        "C": lambda: listed(lambda: random.choice(["a", "'1'", "'2'", "'-'", "' '"])),
        "O": lambda: listed(lambda: random.choice(["97", "49", "50", "45"])),
        "E": expression,
        "G": lambda: goal(depth - 1),
    }
    return "".join(make[it]() if it in make else it for it in form)


def goal(depth):
    if depth > 0 and random.random() < 0.4:
        return filled(random.choice(CONTROL), depth)
    form = random.choice(PRIMITIVES + [f"{it}(T)" for it in TESTS])
    return filled(form, depth)
