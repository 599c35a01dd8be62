"""Databases that are written to do harm, or in which something is missing, and two releases."""

# Labels that are names in JavaScript or words of the report, symbols that would be markup, comments
# with both, and a `$t` comment that would run, load, hide and confuse.
EVIL_SYMBOL = "<img/src=x/onerror=window.taken=1>"
EVIL = (
    f"""$( </script><script>window.taken=1</script> {EVIL_SYMBOL} "quoted" &amp; </style> <!-- $)
$(
#*#*#*#*#*#*#*#*#*#*#*#*#*#*#*#*#*#*#*#*#*
  A chapter </title><script>window.taken=1</script> & "more"
#*#*#*#*#*#*#*#*#*#*#*#*#*#*#*#*#*#*#*#*#*
  Below </script><script>window.taken=1</script> it <HTML><img src=x onerror=window.taken=1></HTML>
$)
$c wff |- ( -> ) </script> </style> <!-- --> " ' &amp; & {{{{data}}}} \\u003c ]]>
   <script>window.taken=1</script> $.
$c {EVIL_SYMBOL} ` - + gone white thin far tall like $.
$v p q <b> $.
wp $f wff p $.
wq $f wff q $.
wb $f wff <b> $.
$( Syntax with\fa form feed,\ta tab and a line\r
   feed. Another sentence. $)
__proto__ $a wff ( p -> q ) $.
$( First </script><script>window.taken=1</script> and {EVIL_SYMBOL} and ` <i> ` and
   ~ constructor . Second _emphasis_ [Author] p. 3. <HTML><script>window.taken=1</script><b
   onclick=window.taken=1>bold</b><a href="javascript:window.taken=1">link</a><style>* {{ display:
   none }}</style><table><td>cell</HTML> ~ javascript:window.taken=1 ~ http://example.org/?a="b"
   See ~ mmset.html#evil for more.
   (Contributed by <b>Eve</b>, 1-Jan-2020.) (New usage is discouraged.) $)
constructor $a |- ( p -> ( q -> p ) ) $.
${{ ..-.. $e |- p $. 1 $e |- ( p -> q ) $. toString $a |- q $. $}}
ax-evil $a |- </script> <script>window.taken=1</script> </style> <!-- --> " ' &amp; & {{{{data}}}}
   \\u003c ]]> ` {EVIL_SYMBOL} <b> $.
${{ hasOwnProperty.1 $e |- p $. hasOwnProperty $p |- ( q $( inside $) -> p ) $=
    wp wq wp __proto__ hasOwnProperty.1 $( in the proof $) wp wq constructor toString $. $}}
ax-looks $a |- - + gone white thin far tall like p $.
"""
    + r"""
df-1e3 $a |- ( <b> -> <b> ) $.
axis $a |- ( <b> -> <b> ) $.
dfx $a |- ( p -> <b> ) $.
mixed-1 $p |- ( <b> -> <b> ) $= wb axis $.
mixed-2 $p |- ( p -> <b> ) $= wp wb dfx $.
1e3 $p |- ( <b> -> <b> ) $= wb df-1e3 $.
end $p |- ( p -> ( <b> -> <b> ) ) $= wb wb __proto__ wp wb 1e3 hasOwnProperty $.
usage $p wff ( p -> ( q -> p ) ) $= wp wq wp __proto__ __proto__ $.
$( ~ nowhere and ` unfinished <HTML><ul><li>one<li>two</HTML> $)
NaN $p |- </script> <script>window.taken=1</script> </style> <!-- --> " ' &amp; & {{data}} \u003c
    ]]> ` """
    + f"""{EVIL_SYMBOL} <b>
    $= wb ax-evil $.
"""
)
EVIL_TYPESETTING = """
$( $t
althtmldef "(" as "<script>window.taken=1</script>(";
althtmldef ")" as ")<img src=x onerror=window.taken=1>";
althtmldef "->" as " <i onclick='window.taken=1' style='display:none'>&rarr;</i> ";
althtmldef "-" as "";
althtmldef "+" as "&#x200B;&#8206;";
althtmldef "gone" as '<span style="display:none;visibility:hidden">gone away</span>';
althtmldef "white" as '<font color="#ffffff">pale</font>';
althtmldef "thin" as '<span style="font-size:0;opacity:0;' +
    'position:absolute;left:-9999px">thin</span>';
althtmldef "far" as '<a href="javascript:window.taken=1">far</a><iframe src="//example.org">';
althtmldef "tall" as '<sup><sup><sup>&#x202E;llat';
althtmldef "like" as '<font color="#eeeeee">' + "pale" + '</font>';
althtmldef "p" as '<SPAN CLASS=wff STYLE="color:blue">&#x1D45D;</SPAN>';
althtmldef "q" as '<SPAN CLASS=wff STYLE="color:blue">&#x1D45D;</SPAN>';
althtmldef "<b>" as '</main></body><style>*{display:none}</style>b';
htmlvarcolor '<span onclick="window.taken=1" style="color:red">wff</span><script>1</script>';
$)
"""
OPEN = """
guess $p |- ( p -> q ) $= ? $.
hopes $p |- ( p -> ( p -> q ) ) $= wp wq __proto__ wp wp wq guess hasOwnProperty $.
"""
EVIL_TITLE = "</title><script>window.taken=1</script>\x01\x1b[31m\u202e{{data}} \"&amp;'"
SHOWN_TITLE = "</title><script>window.taken=1</script>\u2401\u241b[31m\ufffd{{data}} \"&amp;'"


def spelled(number: int) -> str:
    """A number, from 1, in the letters of compressed proofs."""
    rest, last = divmod(number - 1, 20)
    letters = chr(ord("A") + last)
    while rest:
        rest, digit = divmod(rest - 1, 5)
        letters = chr(ord("U") + digit) + letters
    return letters


def doubling(times: int) -> str:
    """Proofs in which a formula is joined with itself again and again, and is then let go; one of
    them of a variable with a long name."""
    letters = "".join(f"Z{spelled(4 + at)}B" for at in range(1, times + 1))
    proof = f"AAB{letters}Z{spelled(5 + times)}CD"
    return f"""$c wff |- ( -> ) T A $. $v p q {"l" * 200} $.
wp $f wff p $. wq $f wff q $. wl $f wff {"l" * 200} $.
wi $a wff ( p -> q ) $. t $a |- T p $. ${{ drop.h $e |- T p $. drop $a |- A $. $}}
small $p |- A $= ( wp wi t drop ) AACD $.
long $p |- A $= ( wp wi t drop ) {proof} $.
large $p |- A $= ( wl wi t drop ) {proof} $.
"""


def hurting(many: int) -> str:
    """Comments and a label that are made to hurt who reads them."""
    return f"""$c |- a $.
$( <HTML>{"<b>" * many}x $) nested $a |- a $.
$( <{"a" * many} $) tag $a |- a $.
$( (Revised and{" by" * many} $) by $a |- a $.
$( {"~ nested " * many}$) named $a |- a $.
{"a" * many} $a |- a $.
end $p |- a $= nested $.
"""


# A comment that names a label so often that some of them stand where a line ends.
NAMED = " ".join(f"{'w' * (at % 9)} ~ ax-mp ;" for at in range(90))

# Databases in which something is missing, or which are made to hurt.
CORNERS = {
    "axioms": "$c |- a $. only $a |- a $.",
    "theorems": "$c wff |- $. $v p $. wp $f wff p $. ${ h $e |- p $. same $p |- p $= h $. $}",
    "unheard": "$c |- a $. ${ h $e |- a $. x $a |- a $. $} x1 $a |- a $. y $p |- a $= x1 x $."
    " ${ k $e |- a $. $}",
    "doubling": doubling(15),
    "hurting": hurting(50_000),
    "labels": f"$c |- a $. $( {NAMED} $) ax-mp $a |- a $. b $p |- a $= ax-mp $.",
}

# Symbols whose definitions would turn a formula, be hidden in it, or make another one of it.
MISLEADING = """$c |- wff ( ) -> = =/= ~ r hidden $. $v p q $. wp $f wff p $. wq $f wff q $.
turned $a |- ( p -> q ) $.
struck $a |- r = ~ r $.
hiding $a |- hidden r $.
$( $t
althtmldef "p" as "&#1488;"; althtmldef "q" as "&#1489;"; althtmldef "->" as " &rarr; ";
althtmldef "(" as "("; althtmldef ")" as ")"; althtmldef "r" as "r"; althtmldef "=" as " = ";
althtmldef "=/=" as " &ne; "; althtmldef "~" as "&#824;"; althtmldef "hidden" as "&#119155;&#847;";
$)
"""


def endless(many: int) -> str:
    """Lists of any length, and a comment that is mathematics alone."""
    given = "".join(f"e{number} $e |- p $. " for number in range(many))
    chain = "".join(f"c{at + 1} $p |- p $= wp wp c{at} two $.\n" for at in range(many))
    variables = " ".join(f"x{number}" for number in range(1000))
    floating = "".join(f"f{name} $f wff {name} $.\n" for name in variables.split())
    return f"""$c wff |- ( -> ) $. $v p q $. wp $f wff p $. wq $f wff q $.
{"".join(f"a{number} $a |- p $.{chr(10)}" for number in range(many))}
${{ {given} given $a |- p $. $}}
$( ` {"( p -> q ) " * 20 * many} ` $) told $a |- p $.
${{ two.1 $e |- p $. two $a |- p $. $}}
c0 $p |- p $= wp a0 $.
{chain}
$v {variables} $. {floating}
${{ $d {variables} $. apart $a |- ( {variables} ) $. $}}
"""


# A chapter and an assertion with a comment, and one without.
COMMENTED = """$c |- a $.
$(
####
  A part
####
  Its text.
$)
$( A comment. $) told $a |- a $.
untold $p |- a $= told $.
"""

# A release and the next: `b` gains ax-2 and ax-5 and loses ax-1, `d` loses ax-1 for ax-3, `old`
# becomes `renamed`, `gone` goes, `fresh`, ax-3, ax-4 and ax-5 are new.
HEAD = """$c |- A B E $.
$(
####
  First part
####
$)
ax-1 $a |- A $.
ax-2 $a |- B $.
$(
#*#*
  Chapter one
#*#*
$)
"""
OLDER = (
    HEAD
    + """c $p |- B $= ax-2 $.
b $p |- A $= ax-1 $.
d $p |- A $= ax-1 $.
old $p |- A $= b $.
user $p |- A $= b $.
gone $p |- B $= c $.
"""
)
NEWER = (
    HEAD
    + """ax-3 $a |- A $.
ax-4 $a |- E $.
${ c.1 $e |- B $. ax-5 $a |- A $. $}
c $p |- B $= ax-2 $.
b $p |- A $= c ax-5 $.
d $p |- A $= ax-3 $.
renamed $p |- A $= b $.
user $p |- A $= b $.
fresh $p |- E $= ax-4 $.
"""
)
