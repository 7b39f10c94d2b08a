"""Prints each sentence of these documents that has more than 29 words, and ends with 1 where there is one.

A word is what has a letter or a digit; what stands between two ` is one. Tables, headings and what is shown as typed or
printed are left out."""
import re
import sys

MOST = 29


def paragraphs(text):
    """The paragraphs and items of a document, each with the number of its first line."""
    start, held, is_shown = 0, [], False
    for number, line in enumerate(text.split('\n') + [''], 1):
        is_item = re.match(r' *([-*]|\d+\.) ', line)
        is_shown = line.startswith('    ') and not is_item and (is_shown or not held)
        is_text = line.strip() and not is_shown and line[0] not in '|#'
        if held and (is_item or not is_text):
            yield start, ' '.join(held)
            held = []
        if is_text:
            start = start if held else number
            held.append(re.sub(r'^([-*]|\d+\.) ', '', line.strip()))


def sentences(text):
    text = re.sub(r'`[^`]*`', 'Code', text)
    text = re.sub(r'\]\([^)]*\)', ']', text)
    return re.split(r'(?<=[.!?])(?:\*\*|\))?\s+(?=[A-Z0-9*\[(])', text)


def main(names):
    found = False
    for name in names:
        with open(name, encoding='utf-8') as document:
            for number, paragraph in paragraphs(document.read()):
                for sentence in sentences(paragraph):
                    count = sum(bool(re.search(r'\w', word)) for word in sentence.split())
                    if count > MOST:
                        found = True
                        print(f'{name}:{number}: {count} words: {sentence}')
    return found


sys.exit(main(sys.argv[1:]))
