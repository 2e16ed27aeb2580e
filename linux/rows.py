"""Reads the text of `tableau-tools export scx` for the tests."""


class Tables:
    def __init__(self, file):
        self.names, self.home, self.rows, self.number = [], [], [], {}
        row = None
        for line in open(file, encoding="ascii"):
            word = line.split()
            if word[0] == "vcpu":
                self.names.append(word[2])
                self.home.append(NOBODY if word[3] == "-" else int(word[3]))
            elif word[0] == "core":
                row = []
                self.rows.append(row)
            elif word[0] == "where":
                row = []
            elif word[0].isdigit():
                may = sum(int(w, 16) << 64 * i for i, w in enumerate(word[2:]))
                row.append((int(word[0]), NOBODY if word[1] == "-" else int(word[1]), may))
            elif word[0] in ("tick", "round", "quantum"):
                self.number[word[0]] = int(word[1])


NOBODY = -1
