"""What stands in several places is as `python3 -m tables` makes it, and that reads the sources as
they are meant, or refuses them."""

import re
import unittest
from unittest import mock

from query.program.refusals import FAULTS
from tables import faults, sources
from tables.__main__ import difference, main
from tables.made import made
from tables.options import Option
from tables.parts import part, whole, words
from tables.sources import TOP, Unreadable, bits_in, codes_in, program_in, sections_in
from tables.words import OPTIONS, Words, described, filled

SOURCE = sources.OPTIONS.read_text("utf-8")


class Made(unittest.TestCase):
    """The files of the repository."""

    maxDiff = None

    def test_they_are_as_they_are_made(self) -> None:
        for name, (before, after) in made().items():
            told = "\n".join(["run `python3 -m tables`:", *difference(name, before, after)])
            self.assertEqual(before == after, True, told)

    def test_the_command(self) -> None:
        """It shows the first lines of each difference, with status 1. What can't be read, or asked,
        has status 2."""
        many = "".join(f"{number}\n" for number in range(99))
        with mock.patch("tables.__main__.made", return_value={"one": ("", many), "two": ("", "")}):
            with mock.patch("builtins.print") as told:
                self.assertEqual(main(["--check"]), 1)
        self.assertEqual(told.call_count, 1)
        self.assertRegex(told.call_args[0][0], r"\A--- one\n(?s:.*)\n\.\.\. 90 more lines\Z")
        with mock.patch("builtins.print"):
            self.assertEqual(main(["--chek"]), 2)
            with mock.patch("tables.__main__.made", side_effect=Unreadable("odd")):
                self.assertEqual(main([]), 2)


class Parts(unittest.TestCase):
    """How what is made gets into a file."""

    TEXT = "a 1\n# begin x: made by `python3 -m tables`; no\nold\n  # end x\nb 1\n"

    def test_a_part(self) -> None:
        made_anew = self.TEXT.replace("old", "n1\nn2")
        self.assertEqual(part("x", ["n1", "n2"])(self.TEXT), made_anew)
        self.assertEqual(part("x", ["n1", "n2"])(made_anew), made_anew)
        self.assertEqual(whole(["n1", "n2"])(self.TEXT), "n1\nn2\n")
        for text in ("", self.TEXT + self.TEXT, self.TEXT.replace("end x", "end")):
            with self.assertRaises(Unreadable):
                part("x", [])(text)

    def test_words(self) -> None:
        self.assertEqual(words(r"[ab] (\d)", "7")("a 1 b 2 c 3"), "a 7 b 7 c 3")
        with self.assertRaises(Unreadable):
            words(r"d (\d)", "7")("a 1")


class Faults(unittest.TestCase):
    """What is said of faults."""

    def test_each_code_has_its_words(self) -> None:
        """Those are in the order of the codes, and the help names the first and the last."""
        codes = sources.codes()
        footer = f"({codes[0]} to {codes[-1]})"
        faults.see_words(codes, footer)
        for wrong in ([*codes, "E99"], codes[:-1], codes[::-1]):
            with self.assertRaises(Unreadable):
                faults.see_words(wrong, f"({wrong[0]} to {wrong[-1]})")
        with self.assertRaises(Unreadable):
            faults.see_words(codes, f"({codes[0]} to {codes[-2]})")

    def test_the_last_column(self) -> None:
        page = (TOP / "docs/FAULTS.md").read_text("utf-8")
        (row,) = re.findall(r"^\| E44 .* \|$", page, re.M)
        other = page.replace(row, row.replace(FAULTS["E44"][1], "x"))
        self.assertNotEqual(other, page)
        self.assertEqual(faults.of_page(other), page)
        for wrong in (page.replace(row, ""), page.replace(row, f"{row}\n{row}")):
            with self.assertRaises(Unreadable):
                faults.of_page(wrong)


class Sources(unittest.TestCase):
    """How sources are read."""

    def test_as_they_are_meant(self) -> None:
        """Other values of a source are read of it. `test_options.py` compares the help that is made
        of this one with that of the program."""
        text = re.sub(r"range\(\d+\.\.\d+\)", "range(2..10)", SOURCE)
        text = re.sub(r"(static \w+: \[&str; \d+\]) = .*;", r'\1 = ["a", "b"];', text)
        text = re.sub(r'(default_value)\("\w+"\)', r'\1("8")', text)
        found = program_in(text, ("all", "three")).options
        numbers = [option for option in found if option.limits]
        self.assertEqual({option.limits for option in numbers}, {(2, 9)})
        self.assertEqual({option.offered() for option in numbers}, {("2", "4", "8")})
        self.assertEqual([option.choices for option in found if option.is_list], [("all", "three")])
        chosen = {option.choices for option in found if not option.is_list and option.choices}
        self.assertEqual(chosen, {("a", "b")})
        self.assertEqual({option.default for option in found}, {None, "8"})
        self.assertEqual(found[-2].words, ("-h", "--help"))
        for option, other in zip(found, sources.program().options, strict=True):
            self.assertEqual((option.words, option.about), (other.words, other.about))
            self.assertRegex(option.about, r'\A[A-Z][^"\\\n]*[^ ]\Z')

    def test_what_is_refused(self) -> None:
        """A source of another form: none of it is passed over."""
        for form, new in (
            (r'\n +\.value_name\("\w+"\)', ""),
            (r'(\.value_name\("\w+"\))', r"\1.short('k')"),
            (r'\.value_name\("(\w+)"\)', r".value_name(\1)"),
            (r'\n +\.long\("\w+"\)', ""),
            (r"\w+\.as_slice", "OTHERS.as_slice"),
            (r"\n +\w+_flag\(alloc\),", ""),
            (r"\nfn (\w+_flag)", r"\nfn other_\1"),
            (r"\nfn (\w+_flag)", r"\npub fn \1"),
            (r"(number_option\(alloc, )\"", r'\1"x", "'),
            (r'\.help\("', r'.help("\\u{e9}'),
            (r"\.about\(", ".long_about("),
            (r"( +)(\w+_flag\(alloc\)),", r"\1if x { \2 },"),
        ):
            odd = re.sub(form, new, SOURCE, count=1)
            self.assertNotEqual(odd, SOURCE, form)
            with self.assertRaises(Unreadable, msg=form):
                program_in(odd, ("all",))
        with self.assertRaises(Unreadable):
            program_in(SOURCE, ("all", "what the help doesn't name"))

    def test_sections(self) -> None:
        text = sources.SECTIONS.read_text("utf-8")
        self.assertEqual(sections_in(text), tuple(sources.bits()))
        bits = {**sources.bits()}
        bits.pop("all")
        # A section that came later has the next bit, wherever its name stands.
        self.assertEqual(sorted(bits.values()), [1 << place for place in range(len(bits))])
        with self.assertRaises(Unreadable):
            sections_in(re.sub(r'\|\| name == "\w+"', "", text, count=1))

    def test_bits(self) -> None:
        request = sources.BITS.read_text("utf-8")
        sections = sources.SECTIONS.read_text("utf-8")
        self.assertEqual(bits_in(request, sections), sources.bits())
        for wrong in (
            (request.replace("bits / 4 % 2", "bits / 4 % 3"), sections),
            (request, sections.replace('has_name(text, "all");', "false;")),
            (request, sections.replace(" || has_name", " | has_name")),
        ):
            self.assertNotEqual(wrong, (request, sections))
            with self.assertRaises(Unreadable):
                bits_in(*wrong)

    def test_codes(self) -> None:
        numbers, declared = (path.read_text("utf-8") for path in (sources.NUMBERS, sources.FAULTS))
        for old, new in (("E45: a", "E46: a"), ("    /// E44: `Z`", "    /// `Z`")):
            self.assertEqual(declared.count(old), 1, old)
            with self.assertRaises(Unreadable):
                codes_in(numbers, declared.replace(old, new))

    def test_each_option_has_its_words(self) -> None:
        """They name each choice, and which one is the default; or the limits."""
        known = sources.program()
        self.assertEqual([option.name for option in described(known)], list(OPTIONS))
        with mock.patch.dict(OPTIONS, clear=True), self.assertRaises(Unreadable):
            described(known)
        choice = Option(("--x",), "", "N", ("a", "b"), default="b")
        number = Option(("--x",), "", "N", limits=(2, 9), default="4")
        text = "`a`, or `{default}` (the default)"
        self.assertEqual(filled(Words("", text, "{others} {value}"), choice).more, "`a` N")
        self.assertEqual(filled(Words("", "from {limits}"), number).text, "from 2 to 9")
        for option, wrong in ((choice, "`a`, or `b`"), (choice, "`b` (the default)"), (number, "")):
            with self.assertRaises(Unreadable, msg=wrong):
                filled(Words("", wrong), option)


if __name__ == "__main__":
    unittest.main()
