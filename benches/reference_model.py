"""A model in Python of the cache of one part, as docs/DEFINITIONS.md describes it: values of weight one, no times, read through.

It is a model and not the cache. It predicts which keys are found if each key of a trace is looked up and, if it is not found, written.
`hit_ratios.py check` compares it, key by key, with the proved program. It also allows trying a rule that the cache does not have (`Aging`).
"""
import collections
import enum

WORD = (1 << 64) - 1
FACTORS = (0xC3A5C85C97CB3127, 0xB492B66FBE98F273, 0x9AE16A3B2F90404F, 0xCBF29CE484222325)
LONGEST_QUEUE = 64
MOST_COUNT = 15


class Aging(enum.Enum):
    """What aging does to the number of hashes counted since the last one."""

    HALVED = "it is halved"
    CORRECTED = "it is halved, less a quarter of the counts that were odd"


def rotated(word, bits):
    return (word << bits | word >> (64 - bits)) & WORD


def siphash(words):
    """SipHash-1-3 under a key of zeros, of so many whole words: the hasher of Rust's standard library where nobody gives it a secret."""
    v0, v1, v2, v3 = 0x736F6D6570736575, 0x646F72616E646F6D, 0x6C7967656E657261, 0x7465646279746573

    def mix():
        nonlocal v0, v1, v2, v3
        v0, v2 = (v0 + v1) & WORD, (v2 + v3) & WORD
        v1, v3 = rotated(v1, 13) ^ v0, rotated(v3, 16) ^ v2
        v0 = rotated(v0, 32)
        v2, v0 = (v2 + v1) & WORD, (v0 + v3) & WORD
        v1, v3 = rotated(v1, 17) ^ v2, rotated(v3, 21) ^ v0
        v2 = rotated(v2, 32)

    for word in (*words, len(words) * 8 << 56 & WORD):
        v3 ^= word
        mix()
        v0 ^= word
    v2 ^= 0xFF
    for _ in range(3):
        mix()
    return v0 ^ v1 ^ v2 ^ v3


class Xoshiro:
    """Xoshiro256++."""

    SEED_ZERO = (0xE220A8397B1DCDAF, 0x6E789E6AA1B965F4, 0x06C45D188009454F, 0xF88BB8A8724C81EC)
    FAR = (0x76E15D3EFEFDCBBF, 0xC5004E441C522FB3, 0x77710069854EE241, 0x39109BB02ACBE635)

    def __init__(self, words):
        self.words = words

    def draw(self):
        s0, s1, s2, s3 = self.words
        s2, s3 = s2 ^ s0, s3 ^ s1
        self.words = (s0 ^ s3, s1 ^ s2, s2 ^ (s1 << 17 & WORD), rotated(s3, 45))
        return (rotated((s0 + (s3 ^ s1)) & WORD, 23) + s0) & WORD

    def far(self):
        """The generator that lies 2^192 draws ahead."""
        far = (0, 0, 0, 0)
        for place in range(256):
            if self.FAR[place // 64] >> place % 64 & 1:
                far = tuple(word ^ own for word, own in zip(far, self.words))
            self.draw()
        return Xoshiro(far)


def seeded_secret():
    """The two words that a service whose generator is seeded by 0 hashes before each key of its first namespace."""
    seeded = Xoshiro(Xoshiro.SEED_ZERO)
    own = Xoshiro(tuple(seeded.draw() for _ in range(4))).far()
    return own.draw(), own.draw()


HALVES = bytes(count // 2 for count in range(256))
ODDS = bytes(count % 2 for count in range(256))


class Sketch:
    """How often each hash was counted: the least of four counts."""

    def __init__(self, size, aging):
        self.words = 1 << max(0, size - 1).bit_length()
        self.counts = bytearray(16 * self.words)
        self.sample, self.counted, self.aging = max(10, 10 * size), 0, aging
        self.known = {}

    def places(self, key_hash):
        """The places of the four counts of a hash, which are reckoned once."""
        if key_hash not in self.known:
            self.known[key_hash] = [self.place(key_hash, number) for number in range(4)]
        return self.known[key_hash]

    def place(self, key_hash, number):
        mixed = (key_hash + FACTORS[number]) * FACTORS[number] & WORD
        mixed = (mixed + (mixed >> 32)) & WORD
        return 16 * (mixed % self.words) + 4 * (key_hash % 4) + number

    def count(self, key_hash):
        counts, grew = self.counts, False
        for place in self.places(key_hash):
            if counts[place] < MOST_COUNT:
                counts[place] += 1
                grew = True
        if grew:
            self.counted += 1
            if self.counted >= self.sample:
                self.age()

    def age(self):
        odd = sum(self.counts.translate(ODDS))
        self.counts = self.counts.translate(HALVES)
        self.counted //= 2
        if self.aging is Aging.CORRECTED:
            self.counted = max(0, self.counted - odd // 4)

    def frequency(self, key_hash):
        counts = self.counts
        return min(counts[place] for place in self.places(key_hash))


class Model:
    """A cache of a capacity above 0. A record is a list of its key and of whether it was refused or evicted."""

    def __init__(self, policy, capacity, hash_of, aging=Aging.HALVED):
        self.is_lru, self.capacity, self.hash_of, self.aging = policy == "lru", capacity, hash_of, aging
        self.held, self.admitted = {}, collections.OrderedDict()
        self.reads, self.writes, self.sketch = [], [], None

    def get(self, key):
        """Whether a key is found. Maintenance comes between the answer and the noting of the read."""
        found = self.held.get(key)
        self.run_if_due()
        self.reads.append((key, found))
        return found is not None

    def put(self, key):
        """Writes a key that is not held."""
        record = [key]
        self.held[key] = record
        self.writes.append(record)
        self.run_if_due()

    def run_if_due(self):
        if len(self.reads) >= LONGEST_QUEUE or len(self.writes) >= LONGEST_QUEUE:
            self.run()

    def run(self):
        for key, found in self.reads:
            if self.sketch:
                self.sketch.count(self.hash_of(key))
            if found is not None and self.admitted.get(key) is found:
                self.admitted.move_to_end(key)
        for record in self.writes:
            self.judge(record)
        self.reads, self.writes = [], []
        if self.sketch is None and len(self.admitted) >= self.capacity // 2:
            self.sketch = Sketch(max(128, self.capacity), self.aging)
        while len(self.admitted) > self.capacity:
            self.evict_first()

    def judge(self, record):
        """Admits a newcomer, or refuses it."""
        if len(self.admitted) >= self.capacity and not self.is_lru:
            if not self.is_preferred(record[0]):
                del self.held[record[0]]
                return
            self.evict_first()
        self.admitted[record[0]] = record

    def is_preferred(self, key):
        """Whether a key was asked for more often than the one that would make room."""
        if not self.sketch:
            return False
        victim = next(iter(self.admitted))
        return self.sketch.frequency(self.hash_of(key)) > self.sketch.frequency(self.hash_of(victim))

    def evict_first(self):
        key, _ = self.admitted.popitem(last=False)
        del self.held[key]


class Lru:
    """A plain list of the keys used last."""

    def __init__(self, capacity):
        self.capacity, self.keys = capacity, collections.OrderedDict()

    def get(self, key):
        if key not in self.keys:
            return False
        self.keys.move_to_end(key)
        return True

    def put(self, key):
        self.keys[key] = None
        if len(self.keys) > self.capacity:
            self.keys.popitem(last=False)


def found_in(cache, keys):
    """For each key of a trace, read through, whether it was found."""
    found = []
    for key in keys:
        is_found = cache.get(key)
        if not is_found:
            cache.put(key)
        found.append(is_found)
    return found
