"""Prints the texts and the files that crates/write_cases replays behind the vectors: what is made of a text, and what is
printed of a file (RULES, "A file as text"). A line is `NAME text HEX = ANSWER` or `NAME dump HEX = ANSWER`; README.md
says what the answers are."""
import sys

import made
import model

SHORT = 1200


def told_of_text(text):
    """The file, or the number of what refuses it and the line; or the line that is wrong."""
    try:
        content, lines = model.read(text)
    except model.Wrong as wrong:
        return f"line {wrong.args[0]}"
    told = model.written(content, model.TOP)
    if told[0] == 0:
        return f"0 {told[1].hex()}"
    return f"{told[0]} line {model.line_told(content, lines, told)}"


def told_of_file(file):
    """The exit status and the text; or that it is refused."""
    status, text = model.dumped(file)
    return "refused" if status == 2 else f"{status} {text.hex()}"


def texts():
    for _, text in made.right_texts():
        yield "right", model.closed(text)
    for text, _ in made.wrong_texts():
        yield "wrong", model.closed(text)
    for lines, _ in made.REFUSED:
        yield "refused", made.on(*lines, b"end")
    for _, text, _ in made.LEFT_OPEN:
        yield "edge", model.closed(text)
    for text, _ in made.ENDS:
        yield "end", text
    whole = model.closed(made.FULL)
    for at in range(0, len(whole), 3):
        yield "front", whole[:at]
    for number, text in enumerate(made.texts_by_chance(240)):
        yield "chance", text if number % 9 == 0 else model.closed(text)


def files():
    for part in (made.odd_strings, made.odd_lists, made.odd_tables, made.not_opening):
        yield from ((part.__name__.replace("_", "-"), file) for _, file in part())


def main():
    for number, (kind, text) in enumerate(texts()):
        if len(text) <= SHORT:
            print(f"{kind}-text-{number} text {text.hex() or '-'} = {told_of_text(text)}")
    for number, (kind, file) in enumerate(files()):
        if len(file) <= SHORT:
            print(f"{kind}-{number} dump {file.hex() or '-'} = {told_of_file(file)}")
    return 0


if __name__ == "__main__":
    sys.exit(main())
