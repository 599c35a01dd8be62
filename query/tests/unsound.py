"""Databases with a wrong definition, and the proof of something that couldn't be proved without it.

Most share `AXIOMS`, which hold where variables of typecode `setvar` are sets, more than one of
them, and those of typecode `class` are classes: so `F.` isn't a theorem. Those over `TERMS` have no
equality of formulas; there nothing but what has the same symbols is equal, and `Bad` isn't a
theorem. The theorem `bad` of a database is new by its definition.
"""

from dataclasses import dataclass, field

SYMBOLS = """$c |- wff class setvar ( ) -> <-> A. = e. { | } F. (/) _V $.
$v ph ps ch th ta x y z A B C D $.
wph $f wff ph $. wps $f wff ps $. wch $f wff ch $. wth $f wff th $. wta $f wff ta $.
vx $f setvar x $. vy $f setvar y $. vz $f setvar z $.
cA $f class A $. cB $f class B $. cC $f class C $. cD $f class D $.
wi $a wff ( ph -> ps ) $.
wb $a wff ( ph <-> ps ) $.
wal $a wff A. x ph $.
cv $a class x $.
wceq $a wff A = B $.
wcel $a wff A e. B $.
cab $a class { x | ph } $.
wfal $a wff F. $.
"""
CONSTANTS = """c0 $a class (/) $.
cvv $a class _V $.
ne $a |- ( (/) = _V -> F. ) $.
"""
LOGIC = """
${ ax-mp.1 $e |- ph $. ax-mp.2 $e |- ( ph -> ps ) $. ax-mp $a |- ps $. $}
ax-1 $a |- ( ph -> ( ps -> ph ) ) $.
id $a |- ( ph -> ph ) $.
${ syl.1 $e |- ( ph -> ps ) $. syl.2 $e |- ( ps -> ch ) $. syl $a |- ( ph -> ch ) $. $}
${ con.1 $e |- ( ph -> ( ph -> ps ) ) $. con $a |- ( ph -> ps ) $. $}
biid $a |- ( ph <-> ph ) $.
${ bicomi.1 $e |- ( ph <-> ps ) $. bicomi $a |- ( ps <-> ph ) $. $}
${ bitri.1 $e |- ( ph <-> ps ) $. bitri.2 $e |- ( ps <-> ch ) $. bitri $a |- ( ph <-> ch ) $. $}
${ mpbi.1 $e |- ph $. mpbi.2 $e |- ( ph <-> ps ) $. mpbi $a |- ps $. $}
${ biimpi.1 $e |- ( ph <-> ps ) $. biimpi $a |- ( ph -> ps ) $. $}
${ bitrd.1 $e |- ( ph -> ( ps <-> ch ) ) $. bitrd.2 $e |- ( ph -> ( ch <-> th ) ) $.
bitrd $a |- ( ph -> ( ps <-> th ) ) $. $}
${ imbi12d.1 $e |- ( ph -> ( ps <-> ch ) ) $. imbi12d.2 $e |- ( ph -> ( th <-> ta ) ) $.
imbi12d $a |- ( ph -> ( ( ps -> th ) <-> ( ch -> ta ) ) ) $.
bibi12d $a |- ( ph -> ( ( ps <-> th ) <-> ( ch <-> ta ) ) ) $. $}
${ gen.1 $e |- ph $. gen $a |- A. x ph $. $}
${ $d ph x $. albidv.1 $e |- ( ph -> ( ps <-> ch ) ) $.
albidv $a |- ( ph -> ( A. x ps <-> A. x ch ) ) $. $}
"""
EQUALITY = """eqid $a |- A = A $.
${ eqcomi.1 $e |- A = B $. eqcomi $a |- B = A $. $}
${ eqtri.1 $e |- A = B $. eqtri.2 $e |- B = C $. eqtri $a |- A = C $. $}
${ eqtrd.1 $e |- ( ph -> A = B ) $. eqtrd.2 $e |- ( ph -> B = C ) $.
eqtrd $a |- ( ph -> A = C ) $. $}
${ eqeq12d.1 $e |- ( ph -> A = B ) $. eqeq12d.2 $e |- ( ph -> C = D ) $.
eqeq12d $a |- ( ph -> ( A = C <-> B = D ) ) $.
eleq12d $a |- ( ph -> ( A e. C <-> B e. D ) ) $. $}
${ $d ph x $. abbidv.1 $e |- ( ph -> ( ps <-> ch ) ) $.
abbidv $a |- ( ph -> { x | ps } = { x | ch } ) $. $}
"""
RENAMING = """${ $d x y $. $d ph y $. $d ps x $. cbv.1 $e |- ( x = y -> ( ph <-> ps ) ) $.
cbvalv $a |- ( A. x ph <-> A. y ps ) $.
cbvabv $a |- { x | ph } = { y | ps } $. $}
"""
SETS = """${ $d z y $. $d z ph $. exi.1 $e |- ( z = y -> ph ) $. exi $a |- ph $. $}
${ $d x y $. two $a |- ( A. x x = y -> F. ) $. $}
sp $a |- ( A. x ph -> ph ) $.
"""
AXIOMS = LOGIC + EQUALITY + RENAMING + SETS
BASE = SYMBOLS + CONSTANTS + AXIOMS
WITHOUT_CONSTANTS = SYMBOLS + AXIOMS
TERMS = """$c |- wff term setvar = o ' T \\ Foo Bad $.
$v a b c x y $.
ta $f term a $. tb $f term b $. tc $f term c $. vx $f setvar x $. vy $f setvar y $.
weq $a wff a = b $.
wbad $a wff Bad $.
tt $a term T $.
to $a term o a $.
tv $a term ' x $.
tl $a term \\ x a $.
${ com.1 $e |- a = b $. com $a |- b = a $. $}
${ tr.1 $e |- a = b $. tr.2 $e |- b = c $. tr $a |- a = c $. $}
${ ro.1 $e |- a = b $. ro $a |- o a = o b $. $}
"""
IDENTITY = "id $a |- a = a $.\n"

FALSE = "c0 cvv wceq wfal {} ne ax-mp"
"""A proof of `F.` from one of `(/) = _V`."""


def both(form: str, empty: str, whole: str) -> str:
    """A proof of `F.` from what proves that a class is `(/)`, and that it is `_V`."""
    return FALSE.format(f"c0 {form} cvv {form} c0 {empty} eqcomi {whole} eqtri")


def equal_to(form: str, true: str, proof: str, is_true: str, is_false: str) -> str:
    """A proof of `F.` from what proves a formula `true`, that a form equals it, and that the form
    equals `F.`."""
    same = f"{true} {form} wfal {form} {true} {is_true} bicomi {is_false} bitri"
    return f"{true} wfal {proof} {same} mpbi"


TRUE = "wfal wfal wi"
"""The formula `( F. -> F. )`, which `wfal id` proves."""


ALL_X = "vx cv vx cv wceq vx wal"
PROVED_ALL_X = "vx cv vx cv wceq vx vx cv eqid gen"
TWO = "vx cv vy cv wceq vx wal wfal vx cv vy cv wceq vx {} gen vx vy two ax-mp"
"""A proof of `F.` from one of `x = y`."""


def some(holds: str, proof: str, is_formula: str, is_same: str) -> str:
    """A proof of `F.` from one that a form equals `( H -> x = y )` for each `x`, and from one of
    `H`, which may have `x`. In `H`, the form, and what proves that it equals the formula, `{0}` is
    the variable; the form has none."""
    equal = "{0} cv vy cv wceq"
    formula = f"{holds} {equal} wi"
    same = f"{formula} {is_formula} {{1}} {is_formula} {formula} {is_same} bicomi {{2}} bitri"
    one, other = (each.format("vx", "", "") for each in (formula, is_same))
    both_ways = same.format("vz", one, other)
    implied = f"{equal} {formula} {{1}} {equal} {holds} ax-1 {formula} {{1}} {{2}} biimpi syl"
    found = f"{one} vy vz {implied.format('vz', one, both_ways)} exi"
    return TWO.format(f"{holds.format('vx')} {equal.format('vx')} {proof} {found} ax-mp")


def at_both_names() -> str:
    """A proof of `( A. x x = x -> F. )` where `Foo` equals `A. x x = x` for each `x`."""
    other, equal = "vy cv vy cv wceq vy wal", f"vy cv vy cv wceq vy wal {ALL_X} wb"
    same = f"{other} wfoo {ALL_X} wfoo {other} vy df-foo bicomi vx df-foo bitri"
    given = f"{equal} {TRUE} {equal} wi {same} {equal} {TRUE} ax-1 ax-mp"
    false = f"wfal wfal wb {TRUE} wfal wfal wb wi wfal biid wfal wfal wb {TRUE} ax-1 ax-mp"
    sides = f"{other} wfal wi {ALL_X} wfal wi"
    under = f"{TRUE} {other} {ALL_X} wfal wfal {given} {false} imbi12d"
    turned = f"{sides} {TRUE} {sides} wb wfal id {under} ax-mp biimpi"
    return f"{ALL_X} wfal {ALL_X} {sides} vx vy q {turned} syl con"


def of_two_dummies() -> str:
    """A proof of `F.` where `Foo` equals `A. y A. x x = y`, also where these are one variable."""
    inner = "vx cv vy cv wceq vx wal"
    same = f"{ALL_X} vx wal"
    proved = f"{ALL_X} vx {PROVED_ALL_X} gen"
    foo = f"{same} wfoo {proved} wfoo {same} vx vx df-foo bicomi mpbi"
    outer = f"wfoo {inner} vy wal {foo} vx vy df-foo mpbi"
    return f"{inner} wfal {inner} vy wal {inner} {outer} {inner} vy sp ax-mp vx vy two ax-mp"


@dataclass(frozen=True)
class Unsound:
    """A database: `text` is what stands behind `base`, `proof` that of the theorem `bad`, which is
    `F.` or `theorem`. `verdicts` are what is found of its definitions: a word and a condition."""

    name: str
    text: str
    proof: str
    verdicts: dict[str, tuple[str, str]]
    base: str = BASE
    theorem: str = "F."
    distinct: str = ""
    options: tuple[str, ...] = field(default=())

    def database(self) -> str:
        """All of it."""
        bad = f"${{ {self.distinct} bad $p |- {self.theorem} $= {self.proof} $. $}}\n"
        return self.base + self.text + bad


FOO = "$c Foo $. cfoo $a class Foo $.\n"
WFOO = "$c Foo $. wfoo $a wff Foo $.\n"
TFOO = "tfoo $a term Foo $.\n"

DATABASES = [
    Unsound(
        "one formula with two trees, each read before the other could be",
        "$c << >> $. cs1 $a class << x >> $. df-s1 $a |- << x >> = (/) $.\n"
        "cs2 $a class << A >> $. df-s2 $a |- << A >> = _V $.\n",
        both("vx cs1", "vx df-s1", "vx cv df-s2"),
        {"df-s1": ("not judged", "grammar"), "df-s2": ("not judged", "grammar")},
    ),
    Unsound(
        "a form that is believed to bind, without a definition that is one",
        "$c Foo Bar $. wfoo $a wff Foo x ph $.\n"
        "${ $d ps x $. $d ps ph $. df-foo $a |- ( Foo x ph <-> ( ( ps -> ps ) -> ph ) ) $. $}\n"
        "wbar $a wff Bar y $. ${ $d x y $. df-bar $a |- ( Bar y <-> Foo x x = y ) $. $}\n",
        some(
            TRUE,
            "wfal id",
            "vy wbar",
            "vy wbar {0} cv vy cv wceq {0} wfoo " + TRUE + " {0} cv vy cv wceq wi {0} vy df-bar"
            " {0} cv vy cv wceq wfal {0} df-foo bitri",
        ),
        {"df-foo": ("not judged", "dummy"), "df-bar": ("no", "bound")},
        distinct="$d x y $. $d y z $. $d x z $.",
    ),
    Unsound(
        "an equality that is defined by itself",
        "",
        "wfal wfal wb wfal wfal biid wfal wfal df-eqv mpbi",
        {"df-eqv": ("no", "new")},
        base=SYMBOLS + "df-eqv $a |- ( ( ph <-> ps ) <-> F. ) $.\n" + CONSTANTS + AXIOMS,
    ),
    Unsound(
        "a form that an axiom of another typecode has before",
        "$c |== Foo $. wfoo $a wff Foo x $. d1 $a |== Foo x $.\n"
        "${ d2.1 $e |== ph $. d2 $a |- ph $. $}\ndf-foo $a |- ( Foo x <-> F. ) $.\n",
        "vx wfoo wfal vx wfoo vx d1 d2 vx df-foo mpbi",
        {"df-foo": ("no", "new")},
    ),
    Unsound(
        "a grammar in which no formula of the database has two trees, but others have",
        "$c ! $. wf $a wff ! ph $. wg $a wff ph ! $. df-f $a |- ( ! ph <-> F. ) $.\n"
        "df-g $a |- ( ph ! <-> ( F. -> F. ) ) $.\n",
        equal_to("wfal wf wg", TRUE, "wfal id", "wfal wf df-g", "wfal wg df-f"),
        {"df-f": ("not judged", "grammar"), "df-g": ("not judged", "grammar")},
    ),
    Unsound(
        "a syntax axiom that holds under a condition",
        "$c / Foo $. ${ div.1 $e |- ( B = (/) -> F. ) $. cdiv $a class ( A / B ) $. $}\n"
        "${ o.1 $e |- A = C $. o.2 $e |- B = D $. o $a |- ( A / B ) = ( C / D ) $. $}\n"
        "${ use.1 $e |- C = ( A / B ) $. use $a |- ( B = (/) -> F. ) $. $}\n"
        "cfoo $a class Foo A $. df-foo $a |- Foo A = ( A / (/) ) $.\n",
        "c0 c0 wceq wfal c0 eqid c0 c0 c0 cfoo c0 df-foo use ax-mp",
        {"df-foo": ("not judged", "syntax")},
    ),
    Unsound(
        "a variable for which anything stands that is proved",
        "$v p $. vp $f |- p $. wpi $a wff ( p -> ph ) $. df-pi $a |- ( ( p -> ph ) <-> F. ) $.\n",
        f"{TRUE} {TRUE} wi wfal {TRUE} id {TRUE} wfal id df-pi mpbi",
        {"df-pi": ("not judged", "syntax")},
    ),
    Unsound(
        "a setvar that needn't be a variable",
        "$c the P Foo $. cthe $a setvar the A $. wp $a wff A P B $. cfoo $a class Foo $.\n"
        "${ $d x A $. p1 $a |- ( x P A -> F. ) $. $} p2 $a |- the A P A $.\n"
        "df-foo $a |- Foo = { y | y = y } $.\n",
        "cfoo cthe cv cfoo wp wfal cfoo p2 cfoo cthe cfoo p1 ax-mp",
        {"df-foo": ("not judged", "setvar")},
        base=WITHOUT_CONSTANTS,
    ),
    Unsound(
        "an axiom that isn't built by the syntax axioms",
        "$c ] Foo $. cfoo $a class Foo $. ${ o1.1 $e |- A ] $. o1 $a |- A = (/) $. $}\n"
        "o2 $a |- Foo ] $. df-foo $a |- Foo = _V $.\n",
        both("cfoo", "cfoo o2 o1", "df-foo"),
        {"df-foo": ("not judged", "read")},
    ),
    Unsound(
        "no equation",
        FOO + "df-foo $a |- ( Foo = Foo -> F. ) $.\n",
        "cfoo cfoo wceq wfal cfoo eqid df-foo ax-mp",
        {"df-foo": ("not judged", "form")},
    ),
    Unsound(
        "a condition",
        WFOO + "${ df-foo.1 $e |- ( ph -> ph ) $. df-foo $a |- ( Foo <-> ph ) $. $}\n",
        equal_to("wfoo", TRUE, "wfal id", f"{TRUE} {TRUE} id df-foo", "wfal wfal id df-foo"),
        {"df-foo": ("not judged", "form")},
    ),
    Unsound(
        "a variable that is defined",
        FOO + "df-foo $a |- A = Foo $.\n",
        FALSE.format("c0 cfoo cvv c0 df-foo cvv cfoo cvv df-foo eqcomi eqtri"),
        {"df-foo": ("no", "left")},
    ),
    Unsound(
        "a form that an axiom has before",
        FOO + "use $a |- Foo = (/) $. df-foo $a |- Foo = _V $.\n",
        both("cfoo", "use", "df-foo"),
        {"df-foo": ("no", "new")},
    ),
    Unsound(
        "a form that a condition of an axiom has before",
        FOO + "${ use.1 $e |- A = Foo $. use $a |- A = (/) $. $} df-foo $a |- Foo = _V $.\n",
        both("cfoo", "cfoo cfoo eqid use", "df-foo"),
        {"df-foo": ("no", "new")},
    ),
    Unsound(
        "a form that is defined twice",
        FOO + "df-foo $a |- Foo = (/) $. df-foo2 $a |- Foo = _V $.\n",
        both("cfoo", "df-foo", "df-foo2"),
        {"df-foo": ("yes", ""), "df-foo2": ("no", "new")},
    ),
    Unsound(
        "a form that is defined by itself",
        WFOO + "df-foo $a |- ( Foo <-> ( Foo -> F. ) ) $.\n",
        "wfoo wfal wfoo wfal wi wfoo {0} wfoo wfoo wfal wi df-foo bicomi mpbi {0} ax-mp".format(
            "wfoo wfal wfoo wfoo wfal wi df-foo biimpi con"
        ),
        {"df-foo": ("no", "new")},
    ),
    Unsound(
        "two forms that are defined by one another",
        "$c Aa Bb $. wa $a wff Aa $. wbb $a wff Bb $.\n"
        "df-a $a |- ( Aa <-> ( Bb -> F. ) ) $. df-b $a |- ( Bb <-> Aa ) $.\n",
        "wbb wfal wbb wfal wi wbb {1} wbb wbb wfal wi {0} bicomi mpbi {1} ax-mp".format(
            "wbb wa wbb wfal wi df-b df-a bitri",
            "wbb wfal wbb wbb wfal wi wbb wa wbb wfal wi df-b df-a bitri biimpi con",
        ),
        {"df-a": ("not judged", "rests"), "df-b": ("no", "new")},
    ),
    Unsound(
        "a dummy that may be in what is put for a variable",
        "$c Foo $. wfoo $a wff Foo A $. df-foo $a |- ( Foo A <-> A. x x = A ) $.\n",
        "vy cv vx cv wceq vy wal wfal vx cv wfoo vy cv vx cv wceq vy wal"
        f" {ALL_X} vx cv wfoo {PROVED_ALL_X} vx cv wfoo {ALL_X} vx vx cv df-foo bicomi mpbi"
        " vy vx cv df-foo mpbi vy vx two ax-mp",
        {"df-foo": ("no", "distinct")},
        distinct="$d x y $.",
    ),
    Unsound(
        "two dummies that may be one",
        WFOO + "df-foo $a |- ( Foo <-> A. y A. x x = y ) $.\n",
        of_two_dummies(),
        {"df-foo": ("no", "distinct")},
        distinct="$d x y $.",
    ),
    Unsound(
        "a dummy that is a formula",
        WFOO + "df-foo $a |- ( Foo <-> ph ) $.\n",
        equal_to("wfoo", TRUE, "wfal id", f"{TRUE} df-foo", "wfal df-foo"),
        {"df-foo": ("no", "dummy")},
    ),
    Unsound(
        "a dummy that is a class",
        FOO + "df-foo $a |- Foo = A $.\n",
        both("cfoo", "c0 df-foo", "cvv df-foo"),
        {"df-foo": ("no", "dummy")},
    ),
    Unsound(
        "a dummy that nothing binds",
        FOO + "df-foo $a |- Foo = x $.\n",
        "vx cv vy cv wceq vx wal wfal vx cv vy cv wceq vx"
        " vx cv cfoo vy cv cfoo vx cv vx df-foo eqcomi vy df-foo eqtri gen vx vy two ax-mp",
        {"df-foo": ("no", "bound")},
        distinct="$d x y $.",
    ),
    Unsound(
        "a dummy that is bound at one of its places",
        "$c Foo $. wfoo $a wff Foo y $.\n"
        "${ $d x y $. df-foo $a |- ( Foo y <-> ( A. x x = x -> x = y ) ) $. $}\n",
        some("{0} cv {0} cv wceq {0} wal", PROVED_ALL_X, "vy wfoo", "{0} vy df-foo"),
        {"df-foo": ("not judged", "bound")},
        distinct="$d x y $. $d y z $. $d x z $.",
    ),
    Unsound(
        "bound variables that may not have other names",
        WFOO + "${ $d x y $. q $a |- ( A. x x = x -> ( A. y y = y -> F. ) ) $. $}\n"
        "df-foo $a |- ( Foo <-> A. x x = x ) $.\n",
        at_both_names(),
        {"df-foo": ("not judged", "renaming")},
        base=(SYMBOLS + CONSTANTS + LOGIC + EQUALITY)
        .replace("${ gen.1 $e |- ph $. gen $a", "$( ")
        .replace("A. x ph $. $}\n${ $d ph x $. albidv", "$) ${ $d ph x $. albidv"),
        theorem="( A. x x = x -> F. )",
        distinct="$d x y $.",
    ),
    Unsound(
        "an equality of which nothing says that it is one",
        FOO + "n0 $a |- ( A = (/) -> F. ) $. df-foo $a |- Foo = (/) $.\n",
        "cfoo c0 wceq wfal df-foo cfoo n0 ax-mp",
        {"df-foo": ("not judged", "equality")},
        base=(SYMBOLS + CONSTANTS + LOGIC).replace("( (/) = _V -> F. )", "( F. -> F. )"),
    ),
    Unsound(
        "an order that is taken as an equality",
        "$c < Foo $. wlt $a wff A < B $. cfoo $a class Foo $. n0 $a |- ( A < (/) -> F. ) $.\n"
        "df-foo $a |- Foo < (/) $.\n",
        "cfoo c0 wlt wfal df-foo cfoo n0 ax-mp",
        {"df-foo": ("not judged", "equality")},
        options=("--equality", "wb,wlt"),
    ),
    Unsound(
        "constants that are distinct, and unfolded aren't",
        "$c P Foo $. wp $a wff A P B $. ${ $d A B $. p1 $a |- ( A P B -> F. ) $. $}\n"
        "p2 $a |- A P A $. cfoo $a class Foo $. df-foo $a |- Foo = { x | x = x } $.\n",
        "cfoo cfoo wp wfal cfoo p2 cfoo cfoo p1 ax-mp",
        {"df-foo": ("not judged", "pairs")},
        base=WITHOUT_CONSTANTS,
    ),
    Unsound(
        "an equality of terms by which a term needn't be equal to itself",
        TFOO + "${ use.1 $e |- a = a $. use $a |- Bad $. $} df-foo $a |- Foo = T $.\n",
        "tt tt tfoo tt tfoo tt df-foo com df-foo tr use",
        {"df-foo": ("not judged", "equality")},
        base=TERMS,
        theorem="Bad",
    ),
    Unsound(
        "a dummy that is a term",
        TFOO + "${ use.1 $e |- o T = o o T $. use $a |- Bad $. $} df-foo $a |- Foo = o a $.\n",
        "tt to tfoo tt to to tfoo tt to tt df-foo com tt to df-foo tr use",
        {"df-foo": ("not judged", "dummy")},
        base=TERMS + IDENTITY,
        theorem="Bad",
    ),
    Unsound(
        "bound variables where formulas have no equality",
        TFOO + "${ $d x y $. use.1 $e |- \\ x ' x = \\ y ' y $. use $a |- Bad $. $}\n"
        "df-foo $a |- Foo = \\ x ' x $.\n",
        "vx vy vx tv vx tl tfoo vy tv vy tl tfoo vx tv vx tl vx df-foo com vy df-foo tr use",
        {"df-foo": ("not judged", "equality")},
        base=TERMS + IDENTITY,
        theorem="Bad",
        distinct="$d x y $.",
    ),
]
