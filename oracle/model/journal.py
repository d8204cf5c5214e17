"""The journal's value: a bound, and per section its durable and its loose records."""

RECORD_MAX = 1068
AREA = 4096


class Journal:
    def __init__(self, kind="plain", size=0):
        self.kind, self.size = kind, size
        self.bound = 0
        self.durable, self.loose = {}, {}

    def sections(self):
        return sorted(set(self.durable) | set(self.loose))

    def held(self, section):
        return self.durable.get(section, []) + self.loose.get(section, [])

    def records(self):
        """By section, then age."""
        return [(s, record) for s in self.sections() for record in self.held(s)]

    def has_room(self, section, record):
        if self.kind == "slot":
            return len(self.records()) < self.size
        if self.kind == "byte":
            held = self.held(section)
            if not held:
                return len(self.sections()) < self.size
            used = 1 + 8 + sum(1 + 2 + len(r) for r in held + [record])
            return used + 1 <= AREA
        return True

    def append(self, section, record):
        """None, or the number of the refusal."""
        if section < self.bound:
            return 28
        if len(record) > RECORD_MAX or not self.has_room(section, record):
            return 27
        self.loose.setdefault(section, []).append(record)
        return None

    def sync(self, section):
        if section in self.loose:
            self.durable.setdefault(section, []).extend(self.loose.pop(section))

    def sync_all(self):
        for section in list(self.loose):
            self.sync(section)

    def prune(self, below):
        self.bound = max(self.bound, below)
        for kept in (self.durable, self.loose):
            for section in [s for s in kept if s < self.bound]:
                del kept[section]

    def cut(self, pruning, keep):
        """What is left when the power goes. `keep` is asked, in reading order, for each record
        that may be lost: loose ones, and all of a section below `pruning`."""
        left = {}
        for section in self.sections():
            if section < pruning:
                left[section] = [r for r in self.held(section) if keep(True)]
            else:
                whole = True
                left[section] = list(self.durable.get(section, []))
                for record in self.loose.get(section, []):
                    whole = keep(False) and whole
                    if whole:
                        left[section].append(record)
        self.durable = {s: records for s, records in left.items() if records}
        self.loose = {}
        self.bound = 0
