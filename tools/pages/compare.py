"""What the code and a page say of the same things, compared; and whether another word would be told."""


def compared(files, read, code, page):
    """The looks at what `read` finds in the code by keys, beside what the page says by them, which comes from the other
    of the two files; and at another word in the place of each that it finds.

    `read` answers the texts by their keys, and the places of words, as spans of the code."""
    here, places = read(code)
    for key in {**here, **page}:
        said = f"{key}\n  {files[0]}: {here.get(key)}\n  {files[1]}: {page.get(key)}"
        yield said, here.get(key) == page.get(key)
    for begin, end in places:
        planted = read(f"{code[:begin]}planted{code[end:]}")[0]
        yield f"NOT TOLD: {files[0]}: another word in the place of {code[begin:end]!r}", planted != page
