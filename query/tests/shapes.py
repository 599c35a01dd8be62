"""Texts that are made to hurt: each has much of one thing, and commands that read it.

`bench/hostile-query` measures how time and memory grow with them, and `test_growth.py` gives them
less of both than a reader needs that takes the square. All are databases that the program accepts.
"""

import os
import resource
from collections.abc import Callable, Mapping, Sequence
from dataclasses import dataclass
from pathlib import Path

from query.tests.world import MMQUERY

Files = dict[str, bytes]

HEAD = """$c wff |- ( ) -> $.
$v p q $.
wp $f wff p $.
wq $f wff q $.
ax $a |- p $.
other $a |- p $.
${ two.1 $e |- p $. two.2 $e |- p $. two $a |- p $. $}
${ via.1 $e |- q $. via $a |- p $. $}
wi $a wff ( p -> q ) $.
"""


@dataclass(frozen=True)
class Shape:
    """What is made for a size, and the commands that are run beside it. `size` is that of the
    benchmark, and `small` the one of the test. `is_answer` is whether the answer itself, or what
    the program says, has the square of the size, and `is_limited` whether the program may need more
    than a text of this length is allowed, which then has no answer."""

    name: str
    make: Callable[[int], Files]
    size: int
    small: int
    commands: tuple[str, ...]
    is_answer: bool = False
    is_limited: bool = False


@dataclass(frozen=True)
class Took:
    """What a command took: seconds of the processor, without what the system took for it, and bytes
    of memory at its peak, those of the program included; how it ended, and what it wrote to
    standard error."""

    seconds: float
    memory: int
    status: int
    said: str


def ran(
    words: list[str],
    folder: Path,
    limit: int,
    surroundings: Mapping[str, str],
    start: Sequence[str] = (str(MMQUERY),),
) -> Took:
    """Runs a command without kept results in a folder, for so many seconds of the processor at the
    most. `start` is how mmquery is started."""
    name, *others = words
    child = os.fork()
    if child == 0:
        os.chdir(folder)
        nowhere = os.open(os.devnull, os.O_RDWR)
        errors = os.open("errors", os.O_WRONLY | os.O_CREAT | os.O_TRUNC, 0o600)
        for number, descriptor in enumerate((nowhere, nowhere, errors)):
            os.dup2(descriptor, number)
        resource.setrlimit(resource.RLIMIT_CPU, (limit, limit))
        os.execve(start[0], [*start, name, "--no-cache", *others], dict(surroundings))
    _, status, usage = os.wait4(child, 0)
    said = (folder / "errors").read_text("latin-1")
    memory = usage.ru_maxrss * 1024
    return Took(usage.ru_utime, memory, os.waitstatus_to_exitcode(status), said)


def one(text: str) -> Files:
    """A database."""
    return {"a.mm": (HEAD + text).encode("latin-1")}


def two(old: str, new: str, config: str = "") -> Files:
    """Two databases, and what is asked of the second one."""
    files = {"a.mm": old, "b.mm": new}
    made = {name: (HEAD + text).encode("latin-1") for name, text in files.items()}
    return {**made, "mmdepend.toml": config.encode()} if config else made


def proof(labels: list[str]) -> str:
    """A proof of `|- p` that cites these, each of which says so."""
    steps = "".join(f"wp {label} two " for label in labels[1:])
    return "wp " * len(labels) + f"{labels[0]} " + steps


def theorem(label: str, *cited: str) -> str:
    """A theorem that cites these."""
    return f"{label} $p |- p $= {proof(list(cited))}$.\n"


def theorems(count: int, cited: str = "ax", name: str = "t") -> str:
    """Many theorems that cite the same."""
    return "".join(theorem(f"{name}{number}", cited) for number in range(count))


def names(count: int, name: str = "t") -> list[str]:
    """The labels of these."""
    return [f"{name}{number}" for number in range(count)]


def axioms(count: int, name: str = "a") -> str:
    """Many axioms."""
    return "".join(f"{name}{number} $a |- p $.\n" for number in range(count))


def variables(count: int) -> tuple[str, list[str]]:
    """The statements that make variables, and these."""
    found = [f"x{number}" for number in range(count)]
    floating = "".join(f"w{name} $f wff {name} $.\n" for name in found)
    return f"$v {' '.join(found)} $.\n{floating}", found


def white_space(count: int) -> Files:
    """Line feeds after the last statement."""
    return two("", "\n" * count)


def blanks(count: int) -> Files:
    """White space between words, in comments and in a heading."""
    gap = " " * count
    text = f"$({gap}$)\n$(\n####\n{gap}\n####\n$)\nx{gap}$a {gap} |-{gap}p{gap}$.\n"
    return two(text, text + f"$( (New{gap}usage $)\ny $a |- p $.\n$( $t{gap}$)\n")


def dollars(count: int) -> Files:
    """A comment full of `$`."""
    return two("", f"$( {'$x ' * count}$)\nx $p |- p $= $( {'$y ' * count}$) wp ax $.\n")


def inner_comments(count: int) -> Files:
    """Comments within formula and proof."""
    some = "$( ( $) " * count
    return two("", f"x $( ) $) $p |- {some}p {some}$= {some}wp ax $.\n")


def remarks(count: int) -> Files:
    """Remarks that are never closed, in comments that are read word by word."""
    return two("", f"$( $j usage {'/* ' * count}$)\n$( $t {'/* ' * count}$)\n")


def quotes(count: int) -> Files:
    """Quotes, doubled and not closed."""
    said = "''" * count
    return one(f"$( $t althtmldef 'p' as '{said} ; \" {'+ ' * count} $)\n")


def preformatted(count: int) -> Files:
    """Tags of preformatted text that aren't closed."""
    comments = "".join(f"$( <pre {number} $)\nx{number} $a |- p $.\n" for number in range(count))
    return one(f"$( {'<pre ' * count}$)\nx $a |- p $.\n$( <pre>{'<pre> ' * count}$)\n" + comments)


def tags(count: int) -> Files:
    """Definitions with many tags that are open, long ones, and long numbers."""
    parts = ["<i>" * count, "<i>x" * count, "<b>x</b>" * count, "<span " + "a" * count + ">x"]
    parts += ["<i" + " " * count + "<", "<span style='" + "color:red;" * count + "'>x"]
    parts += ["&#" + "1" * count + ";", "&#" + "0" * count + "65;", "<" * count, "x" * count]
    lines = "".join(f'althtmldef "p" as "{part}" ;\n' for part in parts)
    return one(f"$( $t\n{lines} $)\n")


def renamed(count: int) -> Files:
    """Theorems of the same statement, all of them renamed and in other order, by what they cite."""
    some = 128
    pairs = [(f"a{number % some}", f"a{some + number // some}") for number in range(count)]
    head = axioms(some + count // some + 1)
    old = "".join(theorem(f"t{number}", *pair) for number, pair in enumerate(pairs))
    new = "".join(theorem(f"u{number}", *pair) for number, pair in enumerate(reversed(pairs)))
    return two(head + old, head + new)


def proved_anew(count: int) -> Files:
    """The same, with new ones that have the old proofs."""
    return two(theorems(count), theorems(count, "other") + theorems(count, "ax", "u"))


def distinct(count: int) -> Files:
    """A `$d` of many variables, and an axiom of all of them, written otherwise in NEW."""
    made, found = variables(count)
    formula = " -> ".join(found)
    text = f"{made}${{ $d {' '.join(found)} $. x $a |- ( {formula} ) $. $}}\n"
    return two(text, text.replace("|- (", "|-  ("))


def redistinct(count: int) -> Files:
    """A `$d` of many variables that lacks one of them in NEW, and a theorem of all of them."""
    made, found = variables(count)
    formula = " -> ".join(found)
    text = f"w $a wff ( {formula} ) $. x $p |- ( {formula} ) $= w{' w'.join(found)} w ax $. $}}\n"
    old, new = (f"{made}${{ $d {' '.join(each)} $. {text}" for each in (found, found[1:]))
    return two(old, new)


def restated(count: int) -> Files:
    """Theorems that say something else in NEW, with a hypothesis more."""
    made = [f"x{number} $p |- p $= wp ax $.\n" for number in range(count)]
    given = "${{ e{0} $e |- q $. x{0} $p |- q $= wq ax $. $}}\n"
    return two("".join(made), "".join(map(given.format, range(count))))


def rehypothesized(count: int) -> Files:
    """The same block of hypotheses with an assertion behind each, in NEW in other order."""
    some = [
        "".join(f"e{n} $e |- {'pq'[(n + first) % 2]} $. y{n} $a |- p $.\n" for n in range(count))
        for first in (0, 1)
    ]
    return two(*(f"${{\n{lines}$}}\n" for lines in some))


def far_distinct(count: int) -> Files:
    """A `$d` of many variables around many assertions of two."""
    made, found = variables(count)
    lines = f"{made}$d {' '.join(found)} $.\n"
    for number, name in enumerate(found[1:]):
        lines += f"y{number} $a |- ( x0 -> {name} ) $.\n"
    return two(lines, lines.replace("|- (", "|-  ("))


def many_distinct(count: int) -> Files:
    """The same `$d` before each of many assertions in one block."""
    lines = "".join(f"$d p q $. y{number} $a |- ( p -> q ) $.\n" for number in range(count))
    return two(f"${{\n{lines}$}}\n", f"${{\n{lines.replace('|- (', '|-  (')}$}}\n")


def many_hypotheses(count: int) -> Files:
    """A `$e` before each of many assertions in one block, of which each has all before it."""
    lines = "".join(f"e{number} $e |- p $. y{number} $a |- p $.\n" for number in range(count))
    return two(f"${{\n{lines}$}}\n", f"${{\n{lines.replace('|- p', '|-  p')}$}}\n")


def deep_blocks(count: int) -> Files:
    """Blocks within blocks."""
    return two("", "${\n" * count + "x $a |- p $.\n" + "$}\n" * count)


def many_axioms(count: int) -> Files:
    """Many axioms, and few theorems, of which one cites them all."""
    text = axioms(count) + theorems(5) + theorem("all", *names(count, "a"))
    return two(text, text + theorem("more", "all"), 'watch = ["a0"]\n')


def axioms_in_other_order(count: int) -> Files:
    """Axioms that stand the other way round in NEW."""
    lines = axioms(count).splitlines(keepends=True)
    end = theorems(20) + theorem("all", *names(count, "a"))
    return two("".join(lines) + end, "".join(reversed(lines)) + end)


def watched_axioms(count: int) -> Files:
    """New axioms that are watched, each with a theorem that came to rest on it."""
    new = "".join(theorem(f"t{number}", f"a{number}") for number in range(count))
    return two(theorems(count), axioms(count) + new, 'watch = ["a*"]\n')


def patterns(count: int) -> Files:
    """New axioms and theorems, and as many words with `*` that watch them, allow others, and allow
    each theorem what it rests on."""
    new = axioms(count) + "".join(theorem(f"t{number}", f"a{number}") for number in range(count))
    watched, allowed = (
        ", ".join(f'"{letter}{number}*"' for number in range(count)) for letter in "ab"
    )
    resting = "".join(f'"a{number}*" = ["t{number}*"]\n' for number in range(count))
    config = f"watch = [{watched}]\n[allow]\naxioms = [{allowed}]\n[allow.new]\n{resting}"
    return two("", new, config)


def equal_distinct(count: int) -> Files:
    """Equal `$d` of many variables, a hypothesis with all of them, and axioms behind empty
    blocks."""
    made, found = variables(200)
    some = f"$d {' '.join(found)} $.\n" * 60
    lines = "".join(f"${{ $}} y{number} $a |- p $.\n" for number in range(count))
    return one(f"{made}{some}${{ e $e |- {' '.join(found)} $.\n{lines}$}}\n")


def long_axiom(count: int) -> Files:
    """A long axiom without hypotheses, which a proof applies again and again."""
    return one(f"long $a |- {'( ' * 10 * count}$.\nx $p |- p $= wp {'long ' * count}ax $.\n")


def resting_on_all(count: int) -> Files:
    """Watched axioms, and new theorems of which each rests on all of them: one cites them, and the
    others one another."""
    new = theorem("t0", *names(count, "a"))
    new += "".join(theorem(f"t{number + 1}", f"t{number}") for number in range(count))
    return two(axioms(count), axioms(count) + new, 'watch = ["a*"]\n')


def arriving(count: int) -> Files:
    """New axioms, and new theorems of which each rests on all before it."""
    before = ["ax", *names(count)]
    lines = (
        f"a{number} $a |- p $.\n{theorem(f't{number}', f'a{number}', before[number])}"
        for number in range(count)
    )
    return two("", "".join(lines))


def justified(count: int) -> Files:
    """Definitions with one right side, and theorems that justify it, each of which rests on a chain
    of theorems."""
    old = """$c |- wff ( ) -> <-> $. $v ph ps ch $.
wph $f wff ph $. wps $f wff ps $. wch $f wff ch $.
wi $a wff ( ph -> ps ) $. wb $a wff ( ph <-> ps ) $. id $a |- ( ph -> ph ) $.
biid $a |- ( ph <-> ph ) $. just $a |- ( ( ph -> ph ) <-> ( ps -> ps ) ) $.
${ s1 $e |- ( ph <-> ps ) $. sy $a |- ( ps <-> ph ) $. $}
${ t1 $e |- ( ph <-> ps ) $. t2 $e |- ( ps <-> ch ) $. tr $a |- ( ph <-> ch ) $. $}
${ m1 $e |- ph $. m2 $e |- ( ph <-> ps ) $. mp $a |- ps $. $}
${ i1 $e |- ( ph <-> ps ) $. i1r $a |- ( ( ph -> ch ) <-> ( ps -> ch ) ) $.
i2r $a |- ( ( ch -> ph ) <-> ( ch -> ps ) ) $. $}
${ k1 $e |- ph $. k2 $e |- ps $. k $a |- ps $. $}
"""
    one = "wph wph wi"
    lines = ["c0 $p |- ( ph -> ph ) $= wph id $."]
    for number in range(1, count):
        cited = f"wph c{number - 1}"
        lines.append(f"c{number} $p |- ( ph -> ph ) $= {one} {one} {cited} {cited} k $.")
    for number in range(count):
        proof = f"{one} {one} wps wps wi wb wph c{count - 1} wph wps just k"
        lines.append(f"j{number} $p |- ( ( ph -> ph ) <-> ( ps -> ps ) ) $= {proof} $.")
        syntax = f"$c D{number} $. d{number} $a wff D{number} $."
        lines.append(f"{syntax} df-d{number} $a |- ( D{number} <-> ( ph -> ph ) ) $.")
    new = old + "\n".join(lines) + "\n"
    files = {"a.mm": old, "b.mm": new, "mmdepend.toml": "definitions = true\n"}
    return {name: text.encode() for name, text in files.items()}


def one_proof(count: int) -> Files:
    """Theorems that all came to rest on a watched axiom by one proof."""
    users = theorem("u0", "t") + "".join(
        theorem(f"u{number + 1}", f"u{number}") for number in range(count)
    )
    old, new = theorem("t", "other") + users, theorem("t", "ax") + users
    return two(old, new, 'watch = ["ax"]\n')


def includes(count: int) -> Files:
    """Comments that begin as includes, with and without one, in both databases and in one."""
    some = "".join(f"$( Begin $[ f{number} $] $)\n$( Skip x $)\n" for number in range(count))
    more = "".join(f"$( Skip $[ g{number} $] $)\n" for number in range(count))
    return two(some + theorems(2), more + theorems(2) + some + f"$( End {'$[ ' * count}$)\n")


def hidden_marks(count: int) -> Files:
    """Marks with comments behind them, and many comments before one label."""
    mark = "$( (New usage is discouraged.) $)\n"
    lines = "".join(f"{mark}$( $j x; $)\nm{number} $a |- p $.\n" for number in range(count))
    return two("", f"{lines}{mark * count}{'$( $j x; $) ' * count}last $a |- p $.\n")


def long_chain(count: int) -> Files:
    """A chain of theorems, and others of which each cites its last one and another one."""
    lines = theorem("t0", "ax")
    lines += "".join(theorem(f"t{i + 1}", f"t{i}") for i in range(count))
    lines += "".join(theorem(f"u{i}", f"t{count}", f"t{i}") for i in range(count))
    return one(lines)


def wide(count: int) -> Files:
    """A theorem that cites many, each of which cites the same."""
    return one(theorems(count) + theorem("last", *names(count)))


def claims(count: int) -> Files:
    """Claims that are broken, all of one theorem that cites many."""
    text = axioms(count)
    text += "".join(theorem(f"t{number}", f"a{number}") for number in range(count))
    text += theorem("last", *names(count))
    said = "".join(f"usage 'last' avoids 'a{number}';\n" for number in range(count))
    return two(text, f"{text}$( $j\n{said} $)\n")


def discouraged(count: int) -> Files:
    """A theorem that cites many whose new usage is discouraged."""
    lines = "".join(
        f"$( (New usage is discouraged.) $)\n{theorem(f't{number}', 'ax')}"
        for number in range(count)
    )
    return two(lines + theorem("last", *names(count)), lines + theorem("last", *names(count)))


def long_label(count: int) -> Files:
    """A label that is as long as all the others together."""
    label = "l" * count
    return one(theorem(label, "ax") + theorem("l", label) + theorems(count // 20))


def headers(count: int) -> Files:
    """Headers of mathboxes, each with a theorem that cites that of another one."""
    lines = ""
    for number in range(count):
        lines += f"$(\n####\n  Mathbox for {number}\n####\n$)\n"
        lines += theorem(f"t{number}", f"t{number - 1}" if number else "ax")
    return two(lines, lines)


def dummies(count: int) -> Files:
    """A proof that names many variables which its theorem doesn't have."""
    made, found = variables(count)
    items = [f"wp w{name} w{name} ax via" for name in found]
    steps = "wp " * (count - 1) + items[0] + "".join(f" {item} two" for item in items[1:])
    group = f"$d {' '.join(found[: count // 2 + 1])} p $."
    return one(f"{made}${{ {group} x $p |- p $= {steps} $. $}}\n")


def letters(number: int) -> str:
    """A number of a compressed proof, from 1."""
    last = chr(ord("A") + (number - 1) % 20)
    number = (number - 1) // 20
    first = ""
    while number:
        first = chr(ord("U") + (number - 1) % 5) + first
        number = (number - 1) // 5
    return first + last


def long_formulas(count: int) -> Files:
    """A proof with long formulas, which proves another one than its theorem says."""
    doublings = 17
    steps = "AABZ" + "".join(letters(5 + k) + "BZ" for k in range(1, doublings))
    long = 2 * letters(5 + doublings) + "B"
    item = f"A{long}{long}CD"
    start = f"A{steps}{letters(5 + doublings)}CD"
    letters_of = "A" * count + start + f"{item}E" * count
    return one(f"x $p |- ( p -> p ) $= ( wi ax via two ) {letters_of} $.\n")


def wrong_proofs(count: int) -> Files:
    """Proofs with long formulas, of which each proves another one than its theorem says."""
    steps = "AAB" + "".join(f"Z{letters(4 + k)}B" for k in range(16))
    return one("".join(f"x{number} $p |- q $= ( wi ax ) {steps}C $.\n" for number in range(count)))


def wrong_symbols(count: int) -> Files:
    """A long symbol, a formula that has it again and again, and a proof of another one."""
    symbol = "s" * count
    long = f"$c {symbol} $. long $a wff ( {symbol} p p ) $.\n"
    return one(f"{long}x $p |- p $= ( long ax ) A{'B' * 14}C $.\n")


def wrong_steps(count: int) -> Files:
    """A proof of many steps that ends with too many entries."""
    return one(f"x $p |- p $= {'wp ax ' * count}$.\n")


def wrong_distinct(count: int) -> Files:
    """A proof in which formulas of many variables have to be distinct, and lack one pair."""
    made, found = variables(count)
    middle = count // 2
    some = f"$d {' '.join(found[1:])} $. $d {' '.join(found[:-1])} $."
    parts = [
        f"w{' w'.join(names)}{' wi' * (len(names) - 1)}"
        for names in (found[:middle], found[middle:])
    ]
    theorem = f"x $p |- ( p -> p ) $= {' '.join(parts)} apart $."
    return one(f"{made}${{ $d p q $. apart $a |- ( p -> q ) $. $}}\n{some}\n{theorem}\n")


def wrong_hypotheses(count: int) -> Files:
    """A wrong proof that names assertions with many hypotheses each, and cites none of them."""
    lines = [f"e{number} $e |- p $. y{number} $a |- p $." for number in range(count)]
    labels = " ".join(f"y{number}" for number in range(count))
    lines.append(f"x $p |- q $= ( ax {labels} ) {letters(3)}{letters(count + 3)} $.")
    return one("${\n" + "\n".join(lines) + "\n$}\n")


def definitions(size: int) -> Files:
    """Forms, statements without them, and their definitions; and a formula in many quantifiers."""
    lines = [
        "$c |- wff class setvar ( <-> ) = A. T. $.",
        "$v ph ps x A B $.",
        "wph $f wff ph $. wps $f wff ps $. vx $f setvar x $. cA $f class A $. cB $f class B $.",
        "wb $a wff ( ph <-> ps ) $. wal $a wff A. x ph $. cv $a class x $. wceq $a wff A = B $.",
        "wtru $a wff T. $.",
        f"df-tru $a |- ( T. <-> {'A. x ' * size}x = x ) $.",
    ]
    lines += [f"$c c{number} $. k{number} $a class c{number} $." for number in range(size)]
    lines += [f"u{number} $a |- ( x = x <-> A = A ) $." for number in range(size)]
    lines += [f"df-{number} $a |- c{number} = c{number + 1} $." for number in range(size - 1)]
    return {"a.mm": "\n".join(lines).encode() + b"\n"}


def premises(count: int) -> Files:
    """Theorems with hypotheses like those of an axiom, which fit it in no order."""
    made, found = variables(22)
    path = [f"( {one} -> {other} )" for one, other in zip(found[:12], found[1:12])]
    given = "".join(f"m{number} $e |- {each} $. " for number, each in enumerate(path))
    lines = [f"{made}${{ {given}x $a |- q $. $}}"]
    edges = [
        f"( {found[2 * layer + one]} -> {found[2 * layer + 2 + other]} )"
        for layer in range(10)
        for one in range(2)
        for other in range(2)
    ]
    for number in range(count):
        given = "".join(f"t{number}.{place} $e |- {each} $. " for place, each in enumerate(edges))
        lines.append(f"${{ {given}t{number} $p |- ( q -> p ) $= wq wp wi ax $. $}}")
    return one("\n".join(lines) + "\n")


def keys(count: int) -> Files:
    """Axioms with hypotheses of a form of their own each, and theorems that they could prove."""
    lines = []
    for number in range(count):
        lines.append(f"$c c{number} $. k{number} $a wff c{number} p $.")
        lines.append(f"${{ x{number}.1 $e |- c{number} p $. x{number} $a |- p $. $}}")
    return one("\n".join(lines) + "\n" + theorems(count))


def lists(count: int) -> Files:
    """Formulas that are lists, of which each end may be one of an element of the list."""
    lines = ["$c , $. w1 $a wff p , $. w2 $a wff p , q $. $c d $. wd $a wff d $."]
    lines += [f"f{number} $a |- {'d , ' * 100}d $." for number in range(count)]
    return one("\n".join(lines) + "\n" + theorems(count))


def brackets(count: int) -> Files:
    """Formulas deep in brackets, also such as are no part or have no tree."""
    return one(
        f"""$c A! x& [ ] $. wx $a wff A! [ p -> q ] $. wy $a wff [ q -> p ] $.
wz $a wff x& p $.
left $a |- {"( " * count}p{" -> q )" * count} $.
right $a |- {"( p -> " * count}q{" )" * count} $.
none $a |- {"[ " * count}p{" ]" * count} $.
opened $a |- {"A! [ " * count}p{" -> p ]" * count} $.
signs $a |- {"x& " * count}p $.
"""
    )


def needless(count: int) -> Files:
    """A `$d` of many variables around many theorems of two, each with a hypothesis, of which none
    is needed; and symbols that are in no formula."""
    made, found = variables(count)
    lines = [f"{made}$d {' '.join(found)} $."]
    for number, name in enumerate(found[1:]):
        lines.append(f"$c c{number} $. $v v{number} $. wv{number} $f wff v{number} $.")
        theorem = f"y{number} $p |- ( x0 -> {name} ) $= wx0 w{name} wi ax $."
        lines.append(f"${{ h{number} $e |- p $. {theorem} $}}")
    return one("\n".join(lines) + "\n")


def asked_again(count: int) -> Files:
    """A proof whose steps ask again and again that many variables be distinct from many others. All
    have other pairs too, for which no step asks."""
    made, found = variables(count)
    middle = count // 2
    halves = (range(middle), range(middle, count))
    formulas = [
        "( " * (len(half) - 1) + found[half[0]] + "".join(f" -> {found[k]} )" for k in half[1:])
        for half in halves
    ]
    wi, apart, two, first, second, whole = (letters(count + number) for number in range(1, 7))
    builds = [[letters(half[0] + 1), *(letters(k + 1) + wi for k in half[1:])] for half in halves]
    steps = ["".join(each) for each in builds]
    item, again = first + second + apart, 8 * count
    steps += [wi, whole * (again - 1) + item + f"{item}{two}" * again]
    theorem = f"x $p |- ( {' -> '.join(formulas)} ) $= ( wi apart two ) {'Z'.join(steps)} $."
    rule = "${ $d p q $. apart $a |- ( p -> q ) $. $}"
    return one(f"{made}{rule}\n$d {' '.join(found)} $.\n{theorem}\n")


def new_proofs(count: int) -> Files:
    """Theorems of which each can do without an axiom, and cites the one before."""
    lines = [
        f"t{number} $p |- ( p -> p ) $= wp wp wi wp wp wi ax {cited} two $.\n"
        for number, cited in enumerate(
            f"wp {'same' if number == 0 else f't{number - 1}'}" for number in range(count)
        )
    ]
    return one("same $a |- ( p -> p ) $.\n" + "".join(lines))


SHAPES = [
    Shape("white space at the end", white_space, 100_000, 100_000,
          ("verify b.mm", "chapters b.mm", "gate a.mm b.mm", "page b.mm")),
    Shape("white space within", blanks, 100_000, 100_000, ("gate a.mm b.mm", "page b.mm")),
    Shape("`$` in comments", dollars, 1_000_000, 100_000, ("gate a.mm b.mm", "chapters b.mm")),
    Shape("comments within statements", inner_comments, 200_000, 20_000,
          ("gate a.mm b.mm", "page b.mm")),
    Shape("open remarks", remarks, 20_000, 100_000, ("gate a.mm b.mm", "page b.mm")),
    Shape("quotes", quotes, 100_000, 100_000, ("page a.mm",)),
    Shape("open `<pre`", preformatted, 40_000, 100_000, ("page a.mm",)),
    Shape("tags", tags, 40_000, 40_000, ("page a.mm",)),
    Shape("equal statements renamed", renamed, 4_000, 4_000,
          ("compare a.mm b.mm", "gate a.mm b.mm", "page --against a.mm b.mm")),
    Shape("equal statements with the old proofs", proved_anew, 4_000, 10_000,
          ("compare a.mm b.mm", "gate a.mm b.mm")),
    Shape("a long `$d`", distinct, 2_000, 2_000,
          ("compare a.mm b.mm", "gate a.mm b.mm", "page a.mm"), is_answer=True),
    Shape("a long `$d` around", far_distinct, 2_000, 4_000,
          ("compare a.mm b.mm", "gate a.mm b.mm", "page a.mm", "export --sqlite out.db a.mm")),
    Shape("a long `$d` that is changed", redistinct, 1_000, 1_000,
          ("compare a.mm b.mm", "review a.mm b.mm", "gate a.mm b.mm"), is_answer=True),
    Shape("changed statements", restated, 40_000, 10_000,
          ("compare a.mm b.mm", "gate a.mm b.mm", "review a.mm b.mm")),
    Shape("hypotheses that are changed", rehypothesized, 2_000, 600,
          ("compare a.mm b.mm", "gate a.mm b.mm"), is_answer=True, is_limited=True),
    Shape("a `$d` before each", many_distinct, 4_000, 3_000,
          ("chapters a.mm", "compare a.mm b.mm", "gate a.mm b.mm", "page a.mm",
           "export --sqlite out.db a.mm")),
    Shape("a `$e` before each", many_hypotheses, 2_000, 3_000,
          ("chapters a.mm", "compare a.mm b.mm", "gate a.mm b.mm"), is_answer=True,
          is_limited=True),
    Shape("definitions", definitions, 20_000, 10_000, ("definitions a.mm",)),
    Shape("deep blocks", deep_blocks, 200_000, 100_000,
          ("gate a.mm b.mm", "page b.mm", "extract b.mm x")),
    Shape("axioms", many_axioms, 100_000, 100_000,
          ("rests b.mm more", "falls b.mm a0", "top b.mm", "compare a.mm b.mm", "gate a.mm b.mm",
           "picture b.mm", "page b.mm")),
    Shape("axioms in other order", axioms_in_other_order, 20_000, 20_000,
          ("compare a.mm b.mm", "gate a.mm b.mm")),
    Shape("watched axioms", watched_axioms, 2_000, 3_000, ("compare a.mm b.mm", "gate a.mm b.mm")),
    Shape("words with `*`", patterns, 5_000, 10_000, ("gate a.mm b.mm",)),
    Shape("theorems on all watched axioms", resting_on_all, 300, 400,
          ("gate a.mm b.mm", "gate --all a.mm b.mm"), is_answer=True),
    Shape("new theorems on new axioms", arriving, 2_000, 2_000,
          ("review a.mm b.mm --format markdown",), is_answer=True),
    Shape("theorems that justify definitions", justified, 2_000, 1_000,
          ("gate a.mm b.mm", "definitions b.mm", "review a.mm b.mm")),
    Shape("theorems by one proof", one_proof, 40_000, 20_000,
          ("gate a.mm b.mm", "gate --all a.mm b.mm", "review a.mm b.mm")),
    Shape("includes in comments", includes, 100_000, 30_000, ("gate a.mm b.mm", "verify b.mm")),
    Shape("hidden marks", hidden_marks, 30_000, 20_000, ("gate a.mm b.mm", "discouraged b.mm")),
    Shape("equal `$d`", equal_distinct, 1_000, 1_000, ("verify a.mm", "rests a.mm y1"),
          is_limited=True),
    Shape("a long axiom", long_axiom, 4_000, 4_000, ("verify a.mm",), is_limited=True),
    Shape("a long chain", long_chain, 10_000, 10_000,
          ("frees a.mm ax", "way-out a.mm ax", "why a.mm t500 ax", "uncited a.mm")),
    Shape("a wide theorem", wide, 20_000, 10_000,
          ("way-out a.mm last ax", "frees a.mm ax", "page a.mm")),
    Shape("claims", claims, 2_000, 2_000, ("gate a.mm b.mm",)),
    Shape("discouraged", discouraged, 10_000, 3_000, ("gate a.mm b.mm", "discouraged b.mm")),
    Shape("a long label", long_label, 400_000, 200_000, ("cites a.mm t1 t2", "order a.mm",
          "way-out a.mm ax", "compare a.mm a.mm")),
    Shape("headers", headers, 20_000, 10_000,
          ("chapters a.mm ax", "mathboxes a.mm", "picture a.mm --png", "page a.mm")),
    Shape("dummy variables", dummies, 2_000, 2_000, ("page a.mm",), is_answer=True),
    Shape("long formulas", long_formulas, 20, 40, ("verify a.mm",)),
    Shape("wrong proofs with long formulas", wrong_proofs, 40, 60, ("verify --each a.mm",)),
    Shape("a long symbol in a wrong proof", wrong_symbols, 400_000, 400_000, ("verify a.mm",)),
    Shape("a wrong proof of many steps", wrong_steps, 100_000, 150_000, ("verify a.mm",)),
    Shape("a wrong proof with many variables", wrong_distinct, 2_000, 2_000, ("verify a.mm",)),
    Shape("hypotheses that a wrong proof names", wrong_hypotheses, 2_000, 3_000,
          ("verify a.mm",), is_answer=True, is_limited=True),
    Shape("hypotheses in any order", premises, 400, 60, ("repeats a.mm", "spare a.mm ax")),
    Shape("hypotheses of many forms", keys, 3_000, 1_000, ("repeats a.mm", "spare a.mm ax")),
    Shape("brackets", brackets, 4_000, 4_000,
          ("search a.mm '( p -> p )'", "search a.mm 'q -> ( p -> ( q'", "search a.mm 'p p'",
           "search a.mm '( p' 'p -> q'")),
    Shape("lists", lists, 1_000, 400, ("spare a.mm ax", "definitions a.mm")),
    Shape("new proofs", new_proofs, 2_000, 1_000, ("repeats a.mm", "spare a.mm ax")),
    Shape("what nothing needs", needless, 4_000, 2_000, ("unneeded a.mm",)),
    Shape("pairs that are asked for again and again", asked_again, 400, 400, ("unneeded a.mm",),
          is_answer=True, is_limited=True),
]  # fmt: skip
