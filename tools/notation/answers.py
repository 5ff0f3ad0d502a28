"""The answers of the definitions: the line for a text or a frame, and the place of a fault."""

import functools

from .running import Running

ANSWERS = "Rattle.tensor_runner.specs.Answer."
LINE_OF, ANSWER_OF, ANSWER_FROM = (ANSWERS + it for it in ("line_of", "answer_of", "answer_from"))
REQUEST_AT = "Rattle.expr_reader.specs.Request.request_at"
OF_FRAME = "Rattle.expr_reader.specs.Frame.request_of_frame"
SHAPE_OF = "Rattle.tensor_terms.specs.Result.shape_of"


class Answers:
    """The definitions that answer, as functions over bytes."""

    def __init__(self):
        self.running = Running()
        # The last text is kept, so that finding the place of its fault doesn't read it again.
        self.running.changed(REQUEST_AT, functools.lru_cache(1))
        for it in (OF_FRAME, LINE_OF, ANSWER_OF, ANSWER_FROM, SHAPE_OF):
            self.running.code(self.running.item(it))

    def line(self, text):
        """Returns the line that answers a text."""
        return bytes(self.running.of(LINE_OF, self.running.of(ANSWER_OF, tuple(text))))

    def line_of_frame(self, header, values):
        """Returns the line for the answer to a frame."""
        request = self.running.of(OF_FRAME, tuple(header), tuple(values))
        return bytes(self.running.of(LINE_OF, self.running.of(ANSWER_FROM, request)))

    def place(self, text):
        """Returns the steps to the first fault of a text, as names and indices; None without a fault."""
        kind, found = self.running.of(REQUEST_AT, tuple(text))
        if kind == "Ok":
            return None
        return [bytes(it).decode() if step == "field" else it for step, it in found["place"]]

    def dims(self, text):
        """Returns the dims of the tensor that a text without a fault asks for."""
        asked = self.running.of(REQUEST_AT, tuple(text))[1]
        return list(self.running.of(SHAPE_OF, asked["term"], asked["inputs"]))

    def cases(self):
        """Yields the cases of this repository's definitions: the item of each, its number, its line, and
        how often it has answered."""
        for case, count in zip(self.running.cases, self.running.counts):
            if case[0].module.is_ours:
                yield *case, count
