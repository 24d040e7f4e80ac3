"""Answers a trace of calls by the rules of docs/, in one thread and with no words packed: a second
opinion on what `hcc_play run` prints, which many.py asks. It knows no faults of texts."""

WORD = 2**64
FIRST = {"H": 3, "L": 2, "B": 1}


class Entry:
    """An entry, in a slot or alone."""

    def __init__(self, key, value, charge, uses):
        self.key, self.value, self.charge, self.uses = key, value, charge, uses
        self.references, self.visible, self.hit, self.slot, self.trail = 0, True, False, None, []


class Shard:
    def __init__(self, slots, capacity, strict):
        self.slots = [None] * slots
        self.passed = [0] * slots
        self.capacity, self.strict = capacity, strict
        self.usage = self.occupancy = self.standing = self.hand = 0

    def limit(self):
        return len(self.slots) * 84 // 100

    def places(self, key):
        return [(key[1] + i * (key[0] | 1)) % WORD % len(self.slots) for i in range(len(self.slots))]

    def free(self, entry):
        self.slots[entry.slot] = None
        for slot in entry.trail:
            self.passed[slot] -= 1

    def evict(self, ask, stats):
        """Turns of the clock: the charge and the slots freed."""
        charge = slots = pinned = turns = 0
        while True:
            turns += 1
            for slot in range(self.hand, self.hand + 4):
                entry = self.slots[slot % len(self.slots)]
                if entry is None:
                    continue
                if entry.references:
                    pinned += 1
                elif entry.visible and entry.uses:
                    entry.uses = min(entry.uses - 1, 2)
                else:
                    self.free(entry)
                    charge, slots = charge + entry.charge, slots + 1
                    stats["evicted"] += 1
                    stats["hit"] += entry.hit
                    stats["freed"] += entry.charge
            self.hand += 4
            most = 3 * len(self.slots) // 4 + 1
            if charge >= ask or turns >= most or (slots + 1) * 30 <= pinned:
                stats["turns"] += turns
                return charge, slots

    def reserve(self, t, stats):
        """Whether there is a place, or why it is refused."""
        if self.strict and t > self.capacity:
            return "TooLarge"
        needs = self.occupancy >= self.limit()
        self.occupancy += 1
        u = self.usage
        if self.strict:
            self.usage += t
            needed = ask = t - min(t, self.capacity - min(u, self.capacity))
        else:
            ask = 0
            if u + t > self.capacity and t <= u:
                ask = t + (min(self.capacity // 1024, t) + 1 if u > self.capacity else 0)
        ask = max(ask, 1 if needs else 0)
        charge, slots = self.evict(ask, stats) if ask else (0, 0)
        if not self.strict:
            self.occupancy -= slots
            if needs and not slots:
                self.occupancy -= 1
                self.usage -= charge
                return "NoPlace"
            self.usage += t - charge
            return "Reserved"
        short = "CapacityFull" if charge < needed else "OccupancyFull" if needs and not slots else None
        self.occupancy -= slots + (1 if short else 0)
        self.usage -= charge + (t if short else 0)
        return short or "Reserved"

    def find(self, key, marks, stats):
        for slot in self.places(key):
            stats["probes"] += 1
            entry = self.slots[slot]
            if entry and entry.visible and entry.key == key:
                entry.references += 1
                entry.hit = entry.hit or marks
                return entry
            if self.passed[slot] == 0:
                return None
        return None

    def place(self, new, stats):
        trail = []
        for slot in self.places(new.key):
            stats["probes"] += 1
            there = self.slots[slot]
            if there is None:
                new.slot, new.trail, self.slots[slot] = slot, trail, new
                return True
            if there.visible and there.key == new.key:
                there.uses += new.uses + new.references
                stats["boosts"] += 1
                break
            trail.append(slot)
            self.passed[slot] += 1
        for slot in trail:
            self.passed[slot] -= 1
        return False

    def erase(self, key, stats):
        count = 0
        for slot in self.places(key):
            stats["probes"] += 1
            entry = self.slots[slot]
            if entry and entry.visible and entry.key == key:
                entry.visible = False
                count += 1
                if not entry.references:
                    self.drop(entry)
            if self.passed[slot] == 0:
                return count
        return count

    def drop(self, entry):
        self.free(entry)
        self.occupancy -= 1
        self.usage -= entry.charge

    def release(self, entry, useful, erase):
        entry.references -= 1
        if useful:
            entry.uses += 1
        if entry.references:
            return False
        if entry.slot is None:
            self.usage -= entry.charge
            self.standing -= entry.charge
            return True
        if not entry.visible or erase:
            self.drop(entry)
            return True
        return False

    def word(self, slot):
        entry = self.slots[slot]
        if entry is None:
            return 0
        state = 7 if entry.visible else 6
        return entry.uses + entry.references + (entry.uses << 30) + (entry.hit << 60) + (state << 61)


class Client:
    def __init__(self, serials):
        self.registers, self.serials = {}, serials
        names = ("probes", "boosts", "evicted", "hit", "freed", "turns", "corrections", "lost")
        self.stats = {name: 0 for name in names}


class Cache:
    def __init__(self, o):
        self.o = o
        part = (o["capacity"] + o["shards"] - 1) // o["shards"]
        self.shards = [Shard(o["slots"], part, o["strict"]) for _ in range(o["shards"])]
        self.clients = [Client(o["serials"]) for _ in range(o["clients"])]

    def home(self, k0, k1):
        """The seeded key, and its shard."""

        def mix(x):
            y = (x ^ self.o["seed"]) * 0x9E3779B97F4A7C15 % WORD
            return y ^ (y >> 32) if self.o["seed"] else 0

        h1 = (int(k1) + mix(int(k0))) % WORD
        h0 = (int(k0) + mix(h1)) % WORD
        return (h0, h1), self.shards[(h0 >> 32) % len(self.shards)]

    def refusal(self, client):
        if len(client.registers) >= self.o["handles"]:
            return "refused HandlesFull"
        return None if client.serials else "refused Spent"

    def insert(self, client, k0, k1, t, q, v, register=None):
        pinned = register is not None
        if pinned and register in client.registers:
            return "busy"
        why = self.refusal(client) if pinned else None if client.serials else "refused Spent"
        if why:
            return why
        key, shard = self.home(k0, k1)
        new = Entry(key, v, int(t), FIRST[q])
        if pinned:
            new.uses, new.references = new.uses - 1, 1
        told = shard.reserve(new.charge, client.stats)
        if told == "TooLarge":
            return "refused TooLarge"
        client.serials -= 1
        if told.endswith("Full"):
            return "refused " + told
        placed = told == "Reserved" and shard.place(new, client.stats)
        if not placed and told == "Reserved":
            shard.occupancy -= 1
            shard.usage -= 0 if pinned else new.charge
        if pinned:
            client.registers[register] = (shard, new)
            if not placed:
                shard.standing += new.charge
                shard.usage += new.charge if told == "NoPlace" else 0
                return "standalone"
        return "placed" if placed else "dropped"

    def get(self, client, register, k0, k1):
        if register in client.registers:
            return "busy"
        why = self.refusal(client)
        if why:
            return why
        key, shard = self.home(k0, k1)
        entry = shard.find(key, self.o["marks"], client.stats)
        if entry is None:
            return "miss"
        client.serials -= 1
        client.registers[register] = (shard, entry)
        return "hit"

    def reref(self, client, register, held):
        if register in client.registers:
            return "busy"
        if held not in client.registers:
            return "none"
        why = self.refusal(client)
        if why:
            return why
        client.serials -= 1
        shard, entry = client.registers[held]
        entry.references += 1
        client.registers[register] = (shard, entry)
        return "held"

    def release(self, client, register, useful, erase):
        if register not in client.registers:
            return "none"
        shard, entry = client.registers.pop(register)
        return "freed" if shard.release(entry, useful, erase) else "kept"

    def totals(self):
        strict = self.o["strict"]
        usage = sum(min(s.usage, s.capacity) if strict else s.usage for s in self.shards)
        held = sum(e.charge for s in self.shards for e in s.slots if e and e.references)
        pinned = held + sum(s.standing for s in self.shards)
        return f"usage {usage} pinned {pinned} occupancy {sum(s.occupancy for s in self.shards)}"

    def answer(self, line):
        number, letter, *words = line.split(" ")
        client = self.clients[int(number)]
        if letter == "I":
            return self.insert(client, *words)
        if letter == "P":
            return self.insert(client, *words[1:], register=words[0])
        if letter == "G":
            return self.get(client, *words)
        if letter == "F":
            return self.reref(client, *words)
        if letter == "R":
            return self.release(client, words[0], words[1] == "U", words[2] == "E")
        if letter == "V":
            held = client.registers.get(words[0])
            return "value " + held[1].value if held else "none"
        if letter == "E":
            key, shard = self.home(*words)
            return f"erased {shard.erase(key, client.stats)}"
        if letter == "U":
            return self.totals()
        if letter == "W":
            shard, slot = self.shards[int(words[0])], int(words[1])
            return f"word {shard.word(slot):016x} displaced {shard.passed[slot]}"
        return "stats " + " ".join(f"{name} {count}" for name, count in client.stats.items())

    def report(self):
        for client in self.clients:
            for register in list(client.registers):
                self.release(client, register, False, False)
        left = [e for s in self.shards for e in s.slots if e]
        usage = sum(s.usage for s in self.shards)
        occupied = sum(s.occupancy for s in self.shards)
        charges = sum(e.charge for e in left)
        counts = f'"charges":{charges},"occupied":{occupied},"slots":{len(left)},"usage":{usage}'
        return "{" + counts + "}"
