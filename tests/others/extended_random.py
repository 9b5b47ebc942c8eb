"""Random programs of the larger language, for the scripts that try them. They print, and end. What is printed is the
same in Inform 6: no number of a text, a routine or an object, no step or message in the arguments of a call, and no step
of a variable in what that variable becomes."""

# What each program begins with: the articles, a routine that prints, and names with types. Constants and arrays are
# computed; some objects have a routine of their own, some the name of one, and three are of classes.
HEAD = """Constant one 1; Constant two = one + one; Constant far (two * 30 - one) | 64; Constant mask;
Attribute lit; Attribute open;
Property size 3; Property weight 10; Property title "plain"; Property use; Property act; Property additive tags;
Global g0 = {a}; Global g1 = far; Global t0 = "text  of
    two lines"; Global f0 = Third;
Array w --> {a} (two + {b}) (-one) far; Array b -> "abcd"; Array f buffer 6; Array texts --> "{t}" "{u}";
Array routines --> Half Twice; Array more --> 4 {c} two (far); Global a0 = w;
Ifdef lit; Default one 9; Default three one + two; Ifnot; Constant three 0; Endif;
Iftrue two > {c}; Constant big; Endif;
Class Thing with weight 4, tags 1 {a}, use Twice, has open;
Class Odd class Thing with title "odd", tags {b}, size (three * 2), act [ x; print "<", x, ">"; return self.size; ], has lit;

Object room "room" with name "room" "box's", size (far - {c}), use [ x y; x = x + two, y = y - x; return x * 3 - y; ],
    act [; print "[", (object) self, "]"; ], has lit;
Object bag "bag" room with title "{t}", size {b}, use Twice, act [ x; print x; rtrue; ], has lit open;
Object pen "pen" bag with weight (-one), size 8, use [ x; self.size++; if (x > 5 or 1) return self.size; ], has open;
Thing cup "cup" bag with title "{u}", act Say, has ~open;
Odd owl "owl" with weight {c}, use Half, size 4, act "It sleeps.";
Odd gem "gem" bag with tags 7 {c};

[ DefArt o; print "the ", (object) o; ];
[ CDefArt o; print "The ", (object) o; ];
[ IndefArt o; print "a ", (object) o; ];
[ CInDefArt o; print "A ", (object) o; ];
[ PrintShortName o; print (object) o; ];
[ Stars n; spaces n & 3; print "*", n; ];
[ Say; print "(said)"; return 4; ];
[ Half x; return x / 2; ];
[ Twice x y; return x + x - y; ];
[ Third x y z; if (x < 5 or -1) return y; return z - x; ];
[ Sum a n i t; for (i = 0 : i < n : i++) t = t + a-->i; return t; ];
"""

OBJECTS = ("room", "bag", "pen", "cup", "owl", "gem")
WORDS = ("old", "two^lines", "~said~", "a b", "x, y", "it's", "over\n   lines", "end^\n  of it")
NUMBERS = (0, 1, 2, 3, 7, 10, 100, 255, 256, 4096)
LOCALS = ("i", "j", "k")
DEPTH = 3


class Program:
    """A program that a generator draws. Its parts are drawn by type: numbers, conditions, items, statements."""

    def __init__(self, draw):
        self.draw = draw
        self.loops = 0

    def one_of(self, *rows):
        """What one of these functions draws."""
        return self.draw.choice(rows)()

    def a(self, *words):
        return self.draw.choice(words)

    def text(self):
        return '"' + self.a(*WORDS) + '"'

    # ---- numbers

    def small(self):
        return str(self.a(*NUMBERS))

    def variable(self):
        return self.a("i", "j", "k", "g0", "g1")

    def entry(self):
        place = self.draw.randrange(4)
        return self.a(
            f"w-->{place}", f"b->{place}", "w-->(i & 3)", "f-->0", "f->(j & 7)", f"m-->{place}", "a0-->(j & 3)", "m->(i & 7)",
        )

    def shown_property(self):
        return f"{self.a(*OBJECTS)}.{self.a('size', 'weight')}"

    def leaf(self):
        return self.one_of(self.small, self.variable, self.entry, self.shown_property, self.constant)

    def constant(self):
        return self.a("one", "two", "far", "-two", "mask", "three")

    def held(self):
        """A number that is no constant: Inform 6 computes with constants in its own way."""
        return self.one_of(self.variable, self.entry, self.shown_property)

    def number(self, depth=DEPTH):
        """A number without effects."""
        if depth == 0:
            return self.leaf()
        one, other = self.number(depth - 1), self.number(depth - 1)
        return self.one_of(
            self.leaf,
            lambda: f"({self.held()} {self.a('+', '-', '*', '&', '|')} {other})",
            lambda: f"({self.held()} {self.a('/', '%')} {self.a('3', 'two', 'far')})",
            lambda: self.a(f"-({one})", f"(~({one}))"),
            lambda: self.called(depth - 1),
            lambda: f"({self.condition(depth - 1)})",
            lambda: f"children({self.a(*OBJECTS)})",
            lambda: f"Sum({self.a('m', 'a0', 'w', 'more')}, {self.a('2', '4')})",
            lambda: f"{self.a('cup', 'owl', 'gem')}.{self.a('#tags', '&tags-->0', '&tags-->1')}",
        )

    def called(self, depth):
        """A call of a value, without effects."""
        first, second = self.number(depth), self.number(depth)
        return self.a(
            f"{self.a('f0', 'l', 'Twice')}({first}, {second})",
            f"{self.a('Half', 'Twice')}({first})",
            f"(routines-->{self.a('0', '1')})({first})",
            f"indirect({self.a('Half', 'f0', 'l')}, {first})",
            f"{self.a('bag', 'owl')}.use({first})",
        )

    # ---- conditions

    def condition(self, depth=1):
        x, y = self.held(), self.number(max(depth - 1, 0))
        # Inform 6 leaves a computed alternative on the stack, where an argument of a call may be.
        z = self.one_of(self.small, self.variable)
        thing, other, third = self.a(*OBJECTS), self.a(*OBJECTS), self.a(*OBJECTS)
        return self.one_of(
            lambda: f"{x} {self.a('==', '~=', '<', '>')} {y} or {z}",
            lambda: f"{x} {self.a('==', '~=', '<', '>', '<=', '>=')} {y}",
            lambda: f"{thing} {self.a('has', 'hasnt')} lit or open",
            lambda: f"{thing} {self.a('has', 'hasnt')} {self.a('lit', 'open')}",
            lambda: f"{thing} provides {self.a('size', 'title')} or act",
            lambda: f"{thing} {self.a('in', 'notin')} {other} or {third}",
            lambda: f"{thing} ofclass {self.a('Thing', 'Odd', 'Odd or Thing')}",
        )

    def test(self):
        one, other = self.condition(), self.condition()
        return self.a(one, one, f"({one}) && ({other})", f"({one}) || ({other})", f"~~({one})")

    # ---- what is printed

    def item(self):
        thing = self.a(*OBJECTS)
        return self.one_of(
            self.text,
            self.number,
            lambda: f"({self.a('the', 'The', 'a', 'an', 'A', 'name', 'object')}) {thing}",
            lambda: f"(string) {self.a('t0', 't', f'{thing}.title', 'texts-->0', 'texts-->1')}",
            lambda: f"(Stars) {self.number(1)}",
            lambda: f"(char) {self.a('65', '97 + two', 'b->1')}",
            self.effect,
        )

    def items(self):
        return ", ".join(self.item() for _ in range(self.draw.randrange(1, 4)))

    def effect(self):
        """A number with one effect."""
        place = self.a("bag.size", "room.size", "g0", "i", "(w-->2)", "(b->1)")
        return self.a(
            f"({place}{self.a('++', '--')})",
            f"({self.a('++', '--')}{place})",
            f"pen.use({self.number(1)})",
            f"room.use({self.number(1)}, {self.number(1)})",
            f"{self.a('room', 'bag', 'cup', 'owl')}.act({self.leaf()})",
        )

    # ---- statements

    def stepped(self):
        """A step or a message as a statement."""
        place = self.a("bag.size", "g0", "j", "(w-->2)", "(b->1)")
        return self.a(
            f"{place}{self.a('++', '--')};",
            f"{self.a('++', '--')}{place};",
            f"pen.use({self.number(1)});",
            f"{self.a('room', 'bag', 'cup', 'owl')}.act({self.leaf()});",
            f"l({self.number(1)});",
        )

    def assigned(self):
        return self.one_of(
            lambda: f"{self.a('j', 'k', 'g0', 'g1', 'w-->1', 'w-->(k & 3)')} = {self.number()}",
            lambda: f"{self.a('bag', 'pen')}.{self.a('size')} = {self.number(2)}",
            lambda: f"{self.a('t', 't0')} = {self.a(self.text(), 'texts-->1', 'bag.title')}",
            lambda: f"{self.a('l', 'f0')} = {self.a('Half', 'Twice', 'routines-->0', 'bag.use')}",
            lambda: f"{self.a('j', 'k')} = {self.effect()}",
            lambda: f"{self.a('m', 'a0')} = {self.a('w', 'more', 'a0', 'm')}",
            lambda: f"{self.a('m', 'a0')}{self.a('-->0', '-->(k & 3)', '->3')} = {self.number(1)} & 127",
        )

    def simple(self):
        return self.one_of(
            lambda: f"print {self.items()};",
            lambda: f"print {self.items()};",
            lambda: ", ".join(self.assigned() for _ in range(self.draw.randrange(1, 4))) + ";",
            self.stepped,
            lambda: f"spaces {self.number(1)} & 7;",
            lambda: f"give {self.a(*OBJECTS)} {self.a('lit', 'open', '~lit')};",
            lambda: "move " + self.a("pen to cup", "pen to bag", "cup to room", "owl to room", "owl to cup") + ";",
            lambda: f"remove {self.a('pen', 'cup', 'owl')};",
        )

    def row(self, depth):
        return " ".join(self.statement(depth) for _ in range(self.draw.randrange(1, 3)))

    def block(self, depth):
        return "{ " + self.row(depth) + " }"

    def loop(self, depth):
        """A loop with a variable of its own, of a few rounds."""
        if self.loops == len("xyz"):
            return self.simple()
        x, first = "xyz"[self.loops], self.a("child(bag)", "pen", "eldest(room)")
        self.loops += 1
        body = self.row(depth - 1)
        lines = self.a(
            f"for ({x} = 0, k = {self.leaf()} : {x} < 3 : {x}++, k = k + {x}) {{ {body} }}",
            f"for ({x} = 2 : {x} > 0 or -1 : {x}--) {{ {body} }}",
            f"{x} = 0; while ({x} < 2) {{ {body} {x}++; }}",
            f"{x} = 3; do {{ {body} {x}--; }} until ({x} < 1 or 0);",
            f"objectloop ({x} in bag) print (the) {x}, (string) {x}.title;",
            f"objectloop ({x} from {first}) {{ print (a) {x}; j = j + {x}.weight; }}",
            f"objectloop ({x} ofclass {self.a('Thing', 'Odd')}) {{ print (the) {x}; k = k - {x}.size; }}",
        )
        self.loops -= 1
        return lines

    def statement(self, depth=2):
        if depth == 0:
            return self.simple()
        return self.one_of(
            self.simple,
            self.simple,
            lambda: f"#Ifdef {self.a('big', 'far', 'none')}; {self.simple()} #Ifnot; {self.simple()} #Endif;",
            lambda: f"if ({self.test()}) {self.block(depth - 1)} else {self.block(depth - 1)}",
            lambda: f"if ({self.test()}) {self.simple()}",
            lambda: self.loop(depth),
            lambda: f"switch ({self.number(1)}) {{ 0, 1: {self.simple()} 2 to 9: {self.simple()} {self.last_case()} }}",
        )

    def last_case(self):
        return f"default: {self.simple()}"

    def source(self):
        """The whole program."""
        parts = {name: self.a(*NUMBERS) for name in "abc"}
        texts = {name: self.a(*WORDS) for name in "tu"}
        head = HEAD.format_map(FilledIn({**parts, **texts}))
        body = "\n    ".join(self.statement() for _ in range(self.draw.randrange(4, 9)))
        last = f'"end ", {self.items()};'
        return f"{head}\n[ Main i j k l m t x y z;\n    l = Half, t = \"t\", m = more;\n    {body}\n    {last}\n];\n"


class FilledIn(dict):
    """Names in braces that are filled in; all other braces stay."""

    def __missing__(self, name):
        return "{" + name + "}"


def program(draw):
    """A program that is drawn."""
    return Program(draw).source()
