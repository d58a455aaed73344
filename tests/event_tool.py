"""The program of crates/ask_events, asked for events, and its answers as values."""
import re
import subprocess


class Wrong(Exception):
    """What disagrees: a tag, and a text."""


TOKEN = re.compile(r"\s*([A-Za-z_]\w*|\d+|[(){},:\[\]])")


def parsed(text):
    """A value as a derived `Debug` prints it: numbers, names, tuples with the name first, dicts of fields."""
    tokens = TOKEN.findall(text)
    place = 0

    def value():
        nonlocal place
        word = tokens[place]
        place += 1
        if word.isdigit():
            return int(word)
        if word == "(":
            return tuple(values(")"))
        if word == "[":
            return values("]")
        if place < len(tokens) and tokens[place] == "(":
            place += 1
            inner = values(")")
            return inner[0] if word == "Some" else (word, *inner)
        if place < len(tokens) and tokens[place] == "{":
            place += 1
            return word, fields()
        return {"None": None, "true": True, "false": False}.get(word, word)

    def values(end):
        nonlocal place
        found = []
        while tokens[place] != end:
            if tokens[place] == ",":
                place += 1
            else:
                found.append(value())
        place += 1
        return found

    def fields():
        nonlocal place
        found = {}
        while tokens[place] != "}":
            if tokens[place] == ",":
                place += 1
                continue
            name = tokens[place]
            place += 2
            found[name] = value()
        place += 1
        return found

    return value()


class Tool:
    def __init__(self, program, image, redo):
        words = [program, image, redo]
        self.ran = subprocess.Popen(words, stdin=subprocess.PIPE, stdout=subprocess.PIPE, text=True)
        self.known = {}
        line = self.ran.stdout.readline()
        if line != "open\n":
            raise Wrong("tool", f"the image isn't opened: {line}")

    def send(self, lines):
        self.ran.stdin.write("".join(f"{line}\n" for line in lines))
        self.ran.stdin.flush()

    def told(self):
        found = []
        while True:
            line = self.ran.stdout.readline()
            if line == "done\n":
                return found
            if not line:
                raise Wrong("ended", f"the program ended with status {self.ran.wait()}")
            found.append(line.rstrip("\n"))

    def lines(self, asked):
        if asked in self.known:
            return self.known[asked]
        self.send([asked])
        return self.told()

    def ask(self, asked, beside):
        """The answer of an event, what is told beside it, and the entries that it added; `beside` is asked at once too."""
        self.send([asked, *beside])
        lines = self.told()
        self.known = {line: self.told() for line in beside}
        entries = [parsed(line[6:]) for line in lines[2:]]
        return parsed(lines[0][7:]), parsed(lines[1][7:])[1], entries

    def end(self):
        self.ran.stdin.close()
        self.ran.stdout.close()
        return self.ran.wait()
