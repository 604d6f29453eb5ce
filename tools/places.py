"""Counts the places in crates/*/src/**/*.rt where an older form of Rattle may stand.

    python3 tools/places.py [FOLDER]

FOLDER is a checkout; without one, that of this script. Each candidate is a line `point kind file:line text`, with
`(stays)` at its end where a comment in its function or type, or up to three lines above, begins with `Stays `. The last
line has the count of each kind. Ghost items are no code here. A rule finds too much rather than too little. The kinds:
1 shape        an enum of which one variant carries values and others none, or of two variants with one value each
  flag         a parameter or field of type bool
  none-number  a comment that gives 0, a length or a blank row a meaning of its own; a field that is compared with 0
  zero-arg     a call with 0 as an argument
  code         a function that answers a number, with a literal, a length or MAX as an answer; a match that gives literals
  else-return  `let .. else { return .. }`, and calls of is_err, is_ok, is_none and is_some
  match-none   a match with an arm None => None, Err or return, Some => None, Ok => Ok, {} or None, Err => Err, None or return
  if-some      an `if` or a return with a value on one side and None on the other
  ok-after     a function that ends in `?; Ok(())`
  options      a struct with two or more fields of type Option
2 twin         functions, impls or types of 12 tokens or more, of which at most 15 in 100 differ, but for types, values and names
  repeat       a stretch of 20 tokens, of which the same holds, that stands twice in bodies of functions
  same-name    functions of different files with one name, or with one name but for its first part
  like-named   functions of one file with like signatures, whose names differ in one part
3 while        a `while`
  for-range    a `for` over a..b; the text says whether its number is an index, an argument or unused
  enumerate    a `for` over `enumerate`
  step         `+= 1`, `-= 1`, or a value `x + 1` for a variable or field
  position     a function that takes a number after a `&mut [..]` and answers a number
  fold         a `for` that assigns a variable of the function, or pushes
  loop-return  a loop that returns
4 hand-impl    an impl of Clone, Copy, PartialEq, Eq, PartialOrd, Ord, Hash, Debug or Default
  no-eq        an enum that does not derive PartialEq
  conversion   a function of one parameter, or of a Result or Option, that is a match or a literal; a method of `self` alone
  cast         `as` to an integer type
  matches      `matches!`; a match whose arms are true, false or a parameter; one with a unit variant and `_`
  printing     a function, of no trait, that takes `&mut String` or answers a `&'static str`; one that prints two values
  field-copy   a struct literal with two or more fields from fields of the same name
  new-default  a function without parameters that makes its own type; a constant BLANK, NONE or EMPTY
5 fact         a clause, parted at `×`, in three or more functions, where each parameter is named by its type
  clause-start the first six words of an `ensures` that is no equation, in three or more functions
  params       two or more parameters that stand together in three or more functions, one of them never without the others
  tuple        a tuple of integers in a signature or field; a parameter that takes an array apart
  guard        a test before a `return` that stands in three or more functions of a file, but for paths and numbers
6 array        a type or value `[.. ; ..]` (searches by hand are loop-return of point 3)
  slice-to     a range as an index, `split_at`
  index        an index that is no literal
  two-arrays   two arrays with one index; two slices, arrays or Vecs in one struct or parameter list
  out-slice    a parameter of type `&mut [..]`
7 switch       a parameter that is a bool or an enum without values
  dispatch     a match of three or more arms of which all but one at most call something
  fn-table     a function pointer or `dyn`
"""
import collections, difflib, itertools, pathlib, re, sys

found, ROOT = set(), pathlib.Path(sys.argv[1] if len(sys.argv) > 1 else pathlib.Path(__file__).parents[1]).resolve()
KINDS = re.findall(r"^[\d ] ([a-z-]+) ", __doc__, re.M)
TOKEN = re.compile(r"""//[^\n]*|b?"(?:\\.|[^"\\])*"|b?'(?:\\.|[^'\\])'|'\w+|\w+'*|::|[-=]>|\.\.=?|&&|\|\||[-+*/%&|^=!<>]=|[^\s\w]""", re.S)
KEYWORDS, INTEGER = "as else false fn for if impl in let match mut pub ref return self struct true while".split(), re.compile(r"[ui](\d+|size)$")
# Rules for the tokens of a file, joined by one space.
RULES = [(1, "flag", r"\w+ : bool\b"), (1, "none-number", r"self \. \w+ [=!]= 0\b"), (1, "zero-arg", r"\S+ \S+ [(,] 0(?= [,)])"),
         (1, "else-return", r"(?<!\} )else \{ return [^;]*|\. is_(?:err|none|some|ok) \( \)"), (1, "ok-after", r"\? ; Ok \( \( \) \) \}"),
         (1, "if-some", r"\} else \{ None \}|\{ None \} else|return None ; \} Some \([^;]*?\} (?=\})|return [^;]+ ; \} None \}"),
         (3, "step", r"[+-]= 1 ;|[=:] (?:\w+ \. )?\w+ \+ 1 [;,}]"), (3, "position", r"& mut \[[^)]*: u\w+[^)]*\) -> u\w+"),
         (4, "hand-impl", r"\bimpl (?:< [^{]* > )?(?:\w+ :: )?(?:Clone|Copy|PartialEq|Eq|PartialOrd|Ord|Hash|Debug|Default) for [^{]*"),
         (4, "cast", r"\S+ as [ui](?:\d+|size)\b"), (4, "matches", r"matches ! \([^()]*"), (4, "printing", r"\w+ : & mut String|-> & 'static str"),
         (4, "printing", r'print(?:ln)? ! \( rt ; "[^"]*\{[^"]*\{[^"]*"'), (4, "new-default", r"const (?:BLANK|NONE|EMPTY)"),
         (5, "tuple", r"\( (?:u\d+|usize) , (?:u\d+|usize) \)|[(,] \[ (?:\w+ ,? ?)+\] :"), (6, "out-slice", r"\w+ : & mut \["),
         (6, "slice-to", r"(?!let)\b[\w)\]]+ \[ [^\]]*\.\.[^\]]*\]|split_at \("), (6, "array", r"\[ [^][;]* ; [^][]* \]"),
         (6, "index", r"(?!(?:in|return|mut|else|let) )(?<=[ (])\w+ \[ (?!\d)[^.\]]*(?:\. [^.\]]*)*\]"), (7, "fn-table", r"\bdyn \w+|\bfn \(")]
ARM = re.compile(r"None => (None|return|Err|Ok)|Some .*=> None|Ok .*=> (Ok|\{ \}|None)|Err .*=> (Err|None|return|unreachable|Ok)|"
                 r"_ => (None|Ok \( \( \) \))$")
MEANING = re.compile(r"\b0 (where|before|if|until|unless|when)\b|or the (length|count)|hold no \w+ yet|past the last")

def joined(tokens):
    return " ".join(t.replace(" ", "_") for t in tokens)

def close(tokens, i):
    """The place of the bracket that closes the one at i."""
    other = {"(": ")", "[": "]", "{": "}", "<": ">"}[tokens[i]]
    depths = itertools.accumulate((t == tokens[i]) - (t == other) for t in tokens[i:])
    return next((j for j, depth in enumerate(depths, i) if depth == 0), len(tokens) - 1)

def skip(tokens, i, stops):
    """The next place from i on, outside brackets, of one of these tokens."""
    while i < len(tokens) and tokens[i] not in stops:
        i = close(tokens, i) + 1 if tokens[i] in ("(", "[", "{") else i + 1
    return i

def parts(tokens, mark=",", brackets="()[]{}<>"):
    """The stretches between marks that stand in no bracket."""
    depths = itertools.accumulate((t in [*brackets[::2]]) - (t in [*brackets[1::2]]) for t in tokens)
    cuts = [-1] + [j for j, (t, depth) in enumerate(zip(tokens, depths)) if t == mark and depth == 0] + [len(tokens)]
    return [tokens[a + 1:b] for a, b in zip(cuts, cuts[1:]) if b > a + 1]

def arms(tokens, i):
    """The patterns and answers of the match at i."""
    i = skip(tokens, i, "{")
    end, i, out = close(tokens, i), i + 1, []
    while i < end:
        arrow = skip(tokens, i, ["=>"])
        after = close(tokens, arrow + 1) + 1 if tokens[arrow + 1] == "{" else min(end, skip(tokens, arrow + 1, [","]))
        out.append((joined(tokens[i:arrow]), joined(tokens[arrow + 1:after])))
        i = after + (tokens[after] == ",")
    return out

class Item:
    """A stretch of a file: a function, a type, the head of an impl, or a lone token."""
    def __init__(self, file, i, end, name="", body=None):
        self.file, self.i, self.end, self.name, self.body = file, i, end, name, body or i
        self.line, self.tokens = file.lines[i], file.tokens[i:end + 1]

    def place(self, kinds, text, at=None):
        """One candidate for each (point, kind, yes) of which yes is true."""
        line, near = self.line if at is None else self.file.lines[at], range(self.line - 3, self.file.lines[self.end] + 1)
        stays = any(n in near and c.lstrip("/ ").startswith("Stays ") for c, n in self.file.comments)
        found.update((point, kind, self.file.name, line, text + " (stays)" * stays) for point, kind, yes in kinds if yes)

class File:
    def __init__(self, path):
        self.name, source = path.relative_to(ROOT).as_posix(), path.read_text()
        raw = [(m[0], 1 + source.count("\n", 0, m.start())) for m in TOKEN.finditer(source)]
        self.comments = [x for x in raw if x[0].startswith("//")]
        raw = [x for x in raw if not x[0].startswith("//")]
        words, self.tokens, self.lines, self.clauses, i = [t for t, _ in raw], [], [], [], 0
        while i < len(raw):
            if words[i] == "ghost":
                i = words.index(";", i) if words[i + 1] == "use" else close(words, words.index("{", i))
                i += words[i + 1:i + 2] in ([","], [";"])
            elif words[i] in ("requires", "ensures"):
                start = words.index("{", i)
                kind, i = words[i], close(words, start)
                self.clauses.append((kind, len(self.tokens), words[start + 1:i]))
            else:
                self.tokens.append(raw[i][0])
                self.lines.append(raw[i][1])
            i += 1
        self.impls, self.types, self.functions, text = [], [], [], self.tokens
        for i, t in enumerate(text):
            if t in ("impl", "trait") and (i == 0 or text[i - 1] in ("}", ";", "]", "pub", ")")):
                start = text.index("{", i)
                self.impls.append(Item(self, i, close(text, start), joined(text[i:start]), start))
            elif t in ("struct", "enum"):
                self.types.append(Type(self, i))
            elif t == "fn" and text[i + 1] != "(":
                self.functions.append(Function(self, i))

class Type(Item):
    def __init__(self, file, i):
        text, start = file.tokens, i + 2
        start = close(text, start) + 1 if text[start] == "<" else start
        super().__init__(file, i, close(text, start) if text[start] in "{(" else start, text[i + 1])
        head = joined(text[max(0, i - 60):i]).rpartition("derive")[2]
        self.derives = [] if re.search("[;}]", head) else head.split()
        self.fields = [re.sub(r"^(# \[ .*? \] )*(pub (\( \w+ \) )?)?", "", joined(f)) for f in parts(text[start + 1:self.end])]
        self.values = [len(parts(f.split()[2:-1])) for f in self.fields] if text[i] == "enum" else []

class Function(Item):
    def __init__(self, file, i):
        text, start = file.tokens, i + 2
        start = close(text, start) + 1 if text[start] == "<" else start
        body = skip(text, arrow := close(text, start) + 1, ["{", ";"])
        super().__init__(file, i, close(text, body) if text[body] == "{" else body, text[i + 1], body)
        params = [parts(p, ":") for p in parts(text[start + 1:arrow - 1])]
        self.params = [(joined(p[0]).removeprefix("mut "), re.sub(r"'\w+ ", "", joined(p[1])) if p[1:] else "") for p in params]
        self.typed = [p for p in self.params if p[1]]
        self.result, self.code = joined(text[arrow + 1:skip(text, arrow, ["where", "{", ";"])]), text[body + 1:self.end]
        self.clauses = [(kind, words) for kind, at, words in file.clauses if i < at <= body]
        self.owner = ([x.name for x in file.impls if x.body < i < x.end] or [""])[0]
        self.of_trait = " for " in self.owner or self.owner.startswith("trait")

def plain(item):
    """Its tokens, where types, numbers, texts, local names and its own name count as equal."""
    out, words = [], item.tokens
    for before, t, after in zip([""] + words, words, words[1:] + [""]):
        local = t[0].islower() and t not in KEYWORDS and before not in (".", "::") and after not in ("(", "::", "!")
        kind = "F" if t == item.name else "T" if INTEGER.match(t) or t[0].isupper() and before != "::" else "v" if local else t
        out.append("N" if t[0].isdigit() or t[-1] in "\"'" else kind)
    return out

def twins(items):
    """Groups of items of which each is near another."""
    texts, groups = [plain(x) for x in items], [{n} for n in range(len(items))]
    for (a, x), (b, y) in itertools.combinations(enumerate(texts), 2):
        m, near = difflib.SequenceMatcher(None, x, y, False), 0.85 * 2 * max(len(x), len(y)) / (len(x) + len(y))
        if min(len(x), len(y)) >= 12 and near <= 1 and m.quick_ratio() >= near and m.ratio() >= near:
            groups[a] |= groups[b]
            for n in groups[a]:
                groups[n] = groups[a]
    return [[items[n] for n in g] for g in {tuple(sorted(g)) for g in groups} if len(g) > 1]

def together(point, kind, members, text="", least=2):
    others = "; ".join(f"{m.file.name.replace('crates/', '')}:{m.line} {m.name}" for m in members)
    members[0].place([(point, kind, len(members) >= least)], text + others)

def of_type(t):
    carry = [v for v in t.values if v]
    slices, options = (sum(bool(re.search(rule, f)) for f in t.fields) for rule in (r": (& .*)?(\[|Vec|ArrayVec)", ": Option <"))
    t.place([(1, "shape", len(carry) == 1 < len(t.values) or carry == [1, 1] and len(t.values) == 2), (1, "options", options > 1),
             (4, "no-eq", t.values and "PartialEq" not in t.derives), (6, "two-arrays", slices > 1)], t.name)

def of_function(f, units):
    code, types, number = joined(f.code), [k for _, k in f.typed], bool(INTEGER.match(f.result))
    whole = re.match(r"(match\b.*\}|[A-Z]\w* \{.*\}|let \( .* \) = match .* \})$", code) and f.code.count("match") < 2
    alone = len(f.params) == 1 and f.result not in ("", "bool") and f.params[0][0] != "rt"
    slices = [k for k in types if re.match(r"& (mut )?(\[|Vec)", k)]
    same = [{a for a, i in re.findall(r"(\w+) \[ (\w+)", code) if i == x} - {*KEYWORDS} for x in re.findall(r"\[ ([a-z]\w*) \]", code)]
    tests = [(1, "code", number and re.search(r"(^|return |=> |[{};] )(\d\w*|\w+ \. len \( \)|\w+ :: MAX)( [;,}]|$)", code)),
             (4, "conversion", not f.of_trait and (alone and (whole or f.params[0][0] == "self")
                                                   or whole and any(re.match("Result|Option", k) for k in types))),
             (4, "field-copy", sum(a == b for a, b in re.findall(r"(?<=[{,] )(\w+) : [\w .]* \. (\w+) (?=[,}])", code)) > 1),
             (4, "new-default", f.owner and not f.of_trait and not f.params and f.result != "bool"),
             (6, "two-arrays", len(slices) > 1 or any(len(s) > 1 for s in same))]
    tests += [(7, "switch", kind == "bool" or kind in units) for kind in types]
    f.place(tests, f"{f.owner + ' :: ' if f.owner else ''}{f.name} ({', '.join(types)}) -> {f.result}")
    for j, t in enumerate(f.code):
        if t in ("match", "while", "for") and f.code[j + 1] != "<":
            (of_match if t == "match" else of_loop)(f, j)

def of_match(f, j):
    cases, text, at = arms(f.code, j), f"{f.name}: {joined(f.code[j:j + 6])}", f.body + 1 + j
    answers, names = [a for _, a in cases], {"true", "false", *(n for n, _ in f.typed)}
    two = len(cases) == 2 and re.fullmatch(r"\w+ :: \w+", cases[0][0]) and (cases[1][0] == "_" or {*answers} & names)
    f.place([(1, "match-none", any(ARM.match(f"{p} => {a}") for p, a in cases)),
             (1, "code", sum(bool(re.match(r"(\w+ )?(\( )?\d[\w ,]*\)?$", a)) for a in answers) > 1), (4, "matches", two or {*answers} <= names),
             (7, "dispatch", len(cases) > 2 and sum("(" in a for a in answers) > len(cases) - 2)], text, at)

def of_loop(f, j):
    start = skip(f.code, j, ["{"])
    head, body, at = joined(f.code[j:start]), joined(f.code[start:close(f.code, start)]), f.body + 1 + j
    changed = {b for a, b in zip(f.code, f.code[1:]) if a == "mut"}
    number = re.match(r"for (?:\( )?(\w+) .*(\.\.|enumerate)", head)
    kind = "while" if f.code[j] == "while" else {"..": "for-range", "enumerate": "enumerate"}[number[2]] if number else ""
    use = "" if not number else " (unused)" if " _ in" in head else " (index)" if re.search(rf"\w \[ {number[1]}\b", body) else " (argument)"
    folds = f.code[j] == "for" and any(re.search(rf"\b{x} (\. \w+ )?([+|]?= |\. push)", body) for x in changed)
    f.place([(3, kind, kind), (3, "fold", folds), (3, "loop-return", "return" in body)], f"{f.name}: {head}{use}", at)

def compare(files, functions):
    """Points 2 and 5, which set functions beside one another."""
    for items in ([f for f in functions if f.code], [x for f in files for x in f.impls], [x for f in files for x in f.types]):
        for members in twins(items):
            together(2, "twin", members)
    named, alike, facts, starts, takers, guards, grams = (collections.defaultdict(list) for _ in range(7))
    for f in functions:
        words, signature = f.name.split("_"), re.sub(r"\b[ui](\d+|size)\b|\b[A-Z]\w*", "T", " ".join(k for _, k in f.typed) + " -> " + f.result)
        if not f.of_trait and f.name != "new":
            for name in {f.name, "_".join(["*"] + words[1:] if words[1:] and words[1:] != ["of"] else words)}:
                named[name].append(f)
        for n in range(len(words) if words[1:] else 0):
            alike[f.file.name, f.owner, tuple(words[:n] + ["*"] + words[n + 1:]), signature].append(f)
        types = {n: f"‹{k.replace(' ', '')}›" for n, k in f.typed} | {"self": f"‹{f.owner.split(' ')[-1]}›"}
        for kind, tokens in f.clauses:
            named_by_type = [re.sub("^(old|new|entry)$", "now", t) if b == "." else types.get(t, t) for b, t in zip([""] + tokens, tokens)]
            for fact in parts(named_by_type, "×", "()[]{}"):
                while fact[0] == "(" and close(fact, 0) == len(fact) - 1:
                    fact = fact[1:-1]
                facts[f"{kind} {joined(fact)}"].append(f)
            if kind == "ensures" and tokens[:2] != ["result", "≡"]:
                starts[joined(tokens[:6])].append(f)
        for test in re.findall(r"if ((?:(?! if )[^{}])*) \{ return|let [^=;]* = ([^{};]*) else \{ return", joined(f.code)):
            guards[f.file.name, re.sub(r":: \w+|\b\d\w*", "_", "".join(test))].append(f)
        for p, where in itertools.product(f.typed, ("everywhere", f.file.name.split("/")[1])):
            takers[p, where].append(f)
        words = plain(f)[f.body - f.i + 1:]
        for j in range(len(words) - 20):
            grams[tuple(words[j:j + 20])].append(f)
    for name, members in named.items():
        if len({m.file.name for m in members}) > 1 and (name[0] != "*" or len({m.name for m in members}) > 1):
            together(2, "same-name", members, name + " .. ")
    for kind, groups in (("like-named", alike), ("repeat", grams)):
        for members in dict.fromkeys(map(tuple, groups.values())):
            together(2, kind, members)
    for kind, groups in (("fact", facts), ("clause-start", starts), ("guard", guards)):
        for text, members in groups.items():
            together(5, kind, list(dict.fromkeys(members)), (text if kind != "guard" else text[1]) + " .. ", 3)
    for (_, where), members in takers.items():
        common, crates = set.intersection(*({*f.typed} for f in members)), {f.file.name.split("/")[1] for f in members}
        if len(common) > 1 and (where != "everywhere" or len(crates) > 1):
            together(5, "params", members, f"{where}: {', '.join(f'{n}: {k}' for n, k in sorted(common))} .. ", 3)

def main():
    files = [File(p) for p in sorted(ROOT.glob("crates/*/src/**/*.rt"))]
    functions, types = [f for file in files for f in file.functions], [t for file in files for t in file.types]
    for t in types:
        of_type(t)
    for f in functions:
        of_function(f, {t.name for t in types if t.values and not any(t.values)})
    for file in files:
        text, items = joined(file.tokens), file.functions + file.types
        for point, kind, rule in RULES:
            for m in re.finditer(rule, text):
                at = text.count(" ", 0, m.start())
                owner = next((x for x in items if x.i <= at <= x.end), Item(file, at, at))
                owner.place([(point, kind, True)], f"{owner.name}: {m[0]}", at)
        for comment, line in file.comments:
            if MEANING.search(comment):
                Item(file, j := next((j for j, n in enumerate(file.lines) if n > line), 0), j).place([(1, "none-number", True)], comment)
    compare(files, functions)
    print(*(f"{point} {kind} {file}:{line} {text}" for point, kind, file, line, text in sorted(found)), sep="\n")
    print("counts: " + ", ".join(f"{k} {sum(x[1] == k for x in found)}" for k in KINDS) + f"; {len(found)} in all")

main()
