"""What a refusal says is worded once: the proved crate words has the sentences, and what else shows them shows the same."""
import pathlib
import re

from reasons import FIELDS, FORMS, SENTENCES

ROOT = pathlib.Path(__file__).resolve().parent.parent


def sentences():
    """The sentence of each refusal, from 1 on, as the definition has them."""
    text = (ROOT / "crates" / "words" / "specs" / "Words.antt").read_text()
    definition = text.split("abbrev pub refusals")[1].split("abbrev pub refusal_text")[0]
    return "".join(re.findall(r'ascii "([^"]*)"', definition)).split(";")[1:]


def test_the_definition_has_twelve():
    assert len(sentences()) == 12 and all(sentences())


def test_rust_says_the_same():
    text = (ROOT / "rust" / "src" / "refusal.rs").read_text()
    said = dict((int(number), words) for number, words in re.findall(r'^ +(\d+) => "([^"]*)",$', text, re.M))
    assert said == dict(enumerate(sentences(), 1))


def test_pages_say_the_same():
    for page in ("README.md", "docs/RULES.md"):
        rows = re.findall(r"^\| (\d+) \| (.*) \|$", (ROOT / page).read_text(), re.M)
        assert [(int(number), words) for number, words in rows] == list(enumerate(sentences(), 1)), page


def joined(name, file):
    """A text of a definition, its parts and the texts that it names put together."""
    text = (ROOT / "crates" / "words" / "specs" / file).read_text()
    body = re.search(rf"^{name} =(.*?)(?:\n\n|\Z)", text, re.M | re.S).group(1)
    parts = re.findall(r'(?:ascii )?(\"[^"]*|[a-z]\w+)(?:\"|\b)', body)
    return "".join(part[1:] if part[0] == '"' else joined(part, file) for part in parts if part != "ascii")


def test_fields_are_worded_as_worked_out_apart():
    kinds = joined("fields", "Fields.antt").split(";")[1:]
    assert [kind[1:].split("|") for kind in kinds] == [row.split("|") for row in FIELDS.values()]
    letters, forms = joined("form_letters", "Fields.antt"), joined("forms", "Fields.antt").split(";")
    assert dict(zip(letters, forms, strict=True)) == {letter: ", " + form for letter, form in FORMS.items()}


def test_reasons_say_the_same():
    assert {number: sentences()[number - 1] for number in SENTENCES} == SENTENCES
