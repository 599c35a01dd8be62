"""One assertion through the revisions of a file, also where its label changed.

Where a revision lacks the label and the next one or the one before has it, or it says something
else there, the two texts are compared: the same statement may have another label there. Then it is
followed by that one; and otherwise by its own, if that is there.
"""

from __future__ import annotations

from collections.abc import Callable, Iterable, Iterator, Sequence
from dataclasses import dataclass, field, replace

from query.git.objects import Objects
from query.program.source import Source
from query.reports.revisions import Content, Figures, Question, figures_of, source_of

LabelIn = Callable[[Source, Source, str, bool], "str | None"]
"""For a label of the first text that of the same assertion in the second one, as a comparison of
both says it; None where there is none. The last argument is whether the first text is the older
one."""


@dataclass
class Trail:
    """Follows the assertion that a question is about. `contents` are those of the revisions, the
    oldest first, and `figures` what each says of it, by the label that it has there."""

    objects: Objects
    contents: Sequence[Content | Figures]
    question: Question
    label_of: LabelIn
    figures: dict[int, Figures] = field(default_factory=dict)

    def followed(self) -> list[Figures]:
        """What each revision says, the oldest first. The label is that of the newest revision which
        has it: from there the assertion is followed back, and then on."""
        count, label = len(self.contents), str(self.question.label)
        back = range(count - 1, -1, -1)
        self.walk(back, label, None)
        last = next((number for number in back if self.figures[number].line), None)
        if last is not None:
            self.walk(range(last + 1, count), label, last)
        return [self.figures[number] for number in range(count)]

    def walk(self, numbers: Sequence[int], label: str, known: int | None) -> None:
        """Goes through revisions, of which each is beside the one before. `known` is the last one
        that has the label."""
        while numbers:
            numbers, label = self.walked(numbers, label, known)
            known = None

    def walked(
        self, numbers: Sequence[int], label: str, known: int | None
    ) -> tuple[Sequence[int], str]:
        """The same up to a revision in which the assertion has another label. Returns what is left
        then, and that label. Where both texts have the label and no other one, it was changed.
        Where it was away and came back it says what it said; otherwise the label is that of another
        assertion, and this one is nowhere from there on."""
        is_away = is_over = False
        for place, figures in enumerate(self.told(numbers, label)):
            number = numbers[place]
            if known is not None and figures.says_other(self.figures[known]):
                other = None if is_away else self.label_in(number, known, label)
                if other not in (None, label):
                    if number < known:
                        self.figures[known] = replace(self.figures[known], other=figures.line)
                    return numbers[place:], str(other)
                is_away = is_away or figures.line is None
                is_over = is_over or (is_away and figures.line is not None)
            self.figures[number] = figures.without_assertion() if is_over else figures
            if self.figures[number].line is not None:
                known, is_away = number, False
        return (), label

    def told(self, numbers: Iterable[int], label: str) -> Iterator[Figures]:
        """What these revisions say of a label."""
        question = replace(self.question, label=label)
        contents = [self.contents[each] for each in numbers]
        for figures in figures_of(self.objects, contents, question):
            yield replace(figures, label=label)

    def label_in(self, number: int, known: int, label: str) -> str | None:
        """The label that an assertion of the revision `known` has in another one; None where that
        has no such assertion."""
        texts = self.text_of(known), self.text_of(number)
        if not isinstance(texts[0], Source) or not isinstance(texts[1], Source):
            return None
        return self.label_of(texts[0], texts[1], label, known < number)

    def text_of(self, number: int) -> Source | Figures:
        """The text of a revision; or that it isn't judged."""
        content = self.contents[number]
        if isinstance(content, Figures):
            return content
        with self.objects.reader() as reader:
            return source_of(self.objects, reader, content)
