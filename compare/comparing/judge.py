"""When an answer of the Rust and one of the checker agree."""

NAMES_OF_INDEX = ("as_path", "schema_name", "item_name")
ONE_STEP = ("new", "join", "add", "add_part", "part_add", "bitand", "bitand_part", "part_bitand",
            "oneof", "andor")  # no other list on the way to the result
LIMITS = {10: "ANDOR over 12 factors, which the Rust tries all",
          11: "over 128 parts or 12 names on the way, where the Rust has no limit"}
NOT_FOUND, SECOND_RULE = 6, 8
NAME_TAG = b"\x10"
HEADER = 3


def data_of(word):
    """The bytes of a word."""
    return b"" if word == "-" else bytes.fromhex(word)


def text_of(answer):
    """The text of a listing's answer."""
    return data_of(answer.split(" ")[1]).decode("ascii")


def refusal_of(asked, answer):
    """The number and place that an answer of the checker refuses with; None where it does not."""
    words = answer.split(" ")
    if asked == "listing" and words[0] == "ok":
        words = text_of(answer).split()
    if asked in ("schema_name", "item_name") and words == ["ok", "-"]:
        return 15, 0  # the empty part; `as_path` tells why
    return tuple(map(int, words[1:3])) if words and words[0] == "refused" else None


def judge(question, rust, checker):
    """agree, listed, silent or differ."""
    asked, *words = question.split(" ")
    refusal = refusal_of(asked, checker)
    if rust == checker:
        return "agree"
    if rust == "silent costly":
        return "silent"
    if refusal is not None:
        return judge_refusal(asked, words, rust, *refusal)
    if asked == "listing" and rust.startswith("ok"):
        return judge_listings(text_of(rust), text_of(checker))
    return "differ"


def judge_refusal(asked, words, rust, number, place):
    """What the checker refuses with a number, at a place."""
    said, *values = rust.split(" ")
    if said == "silent":
        return "silent"
    if number in LIMITS and past_limit(asked, said):
        return "listed"
    if said == "error":
        query = words[1] if asked == "resolve" else words[0]
        same = int(values[0]) == number and stands_at(data_of(query), number, place, values[1])
    else:
        same = number in meant(asked, said, values)
    return "agree" if same else "differ"


def past_limit(asked, said):
    """The Rust went on past a limit: to too long a list, or to one that AND made short again."""
    return said == "beyond" or (asked not in ONE_STEP and said in ("ok", "panic", "refused"))


def stands_at(data, number, place, name):
    """The name that the Rust complains of is the one at the refusal's place."""
    name = data_of(name)
    length = len(name).to_bytes(2, "big")
    if number == NOT_FOUND:
        return data[place - len(length):place + len(name)] == length + name
    return number != SECOND_RULE or data[place + HEADER:].startswith(NAME_TAG + length + name)


def meant(asked, said, values):
    """The numbers of refusal that an answer of the Rust stands for."""
    if said == "refused":
        return [int(values[0])]
    if said == "panic":
        return [15] if asked in NAMES_OF_INDEX else [9, 14]
    return [13] if said == "endless" else []


def items(text):
    """A listing's items: a line that names a supertype or type, with the lines of its parts."""
    found = []
    for line in text.splitlines():
        if line.startswith(("supertype ", "type ")):
            found.append([])
        found[-1].append(line)
    return found


def judge_listings(rust, checker):
    """listed where all items are equal but those that the checker refuses with a limit."""
    theirs, ours = items(rust), items(checker)
    same = len(theirs) == len(ours) and all(map(same_item, theirs, ours))
    return "listed" if same else "differ"


def same_item(left, right):
    """Equal, or the same path refused with 10 or 11."""
    _, path, *told = right[0].split(" ")
    limited = told in (["refused", "10"], ["refused", "11"])
    return left == right or (limited and left[0].split(" ")[1] == path)
