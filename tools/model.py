"""The calls of the deck, written once more in Python for every content of the tables.

From docs/SCOPE.md (document 01) and docs/DECISIONS.md (what 12 looks at), not from the code. tools/compare-damaged
holds the library against it. Stages and numbers are document 01's; the tables are those of docs/TABLES.md.

A call that is refused or held raises `Refused`, and what it had stored by then is taken back. So each definition can
follow document 01's order, and tests may stand wherever a number is used.
"""

# Where the tables begin in the words (docs/TABLES.md).
CELLS, FIRST, COUNT, NEXT, READERS = 0, 256, 512, 1024, 1536
CARRIERS, XS, YS, MARKS = 2048, 4096, 6144, 8192
KNOWN, LOCKS, CURRENT, FORMER = 10240, 10752, 11264, 11776
HITS, HIT_XS, HIT_YS, HIT_MARKS = 12288, 13312, 14336, 15360
CLOCK, POOL, HEIGHT, WORDS = 16384, 16385, 16897, 16898
TIMES = 2048
NO_BUCKET, NO_PLACE = 512, 524288

LAST_STAMP = 2147483647  # the largest magnitude of a stamp
SPENT = 2147483600  # from here on a start is refused
ALL = 4294967295  # the largest number of 32 bits

# Numbers of a lane.
CARRIER, X, Y, MARK, STAGE, CELL, BUCKET, SLOT, MOVED, UNLINKED = range(10)
Q_KIND, Q_X0, Q_Y0, Q_X1, Q_Y1, Q_RADIUS, Q_STAMP, Q_HITS, Q_STEPS, Q_STAGE, Q_CELL, Q_BUCKET, Q_LEFT = range(13)
QUERY = 13  # how many numbers a query lane has
IDLE, ENTER, READ, FINISHED = range(4)
TOUCHING, WITHIN, CENTRE = range(3)  # the kinds of questions: T, W, Q


class Refused(Exception):
    """A call that changes nothing, with its number."""

    def __init__(self, number):
        self.number = number


def need(right):
    if not right:
        raise Refused(12)


def unless(right, number):
    if not right:
        raise Refused(number)


class Deck:
    """A deck over four sequences of numbers: words, times, the update lanes and the query lanes."""

    def __init__(self, words, times, updaters, queries):
        self.words, self.times, self.updaters, self.queries = words, times, updaters, queries
        self.stored = []

    def put(self, table, i, value):
        self.stored.append((table, i, table[i]))
        table[i] = value

    def word(self, i, value):
        self.put(self.words, i, value)

    def call(self, body, *arguments):
        """What a call gives; where it is refused or held, everything is as it was."""
        self.stored = []
        try:
            return body(*arguments)
        except Refused as refused:
            for table, i, value in reversed(self.stored):
                table[i] = value
            return refused.number

    # ---- numbers that are used, with their ranges

    def within(self, number, most):
        need(number <= most)
        return number

    def lock_at(self, at):
        """A lock that is to be taken: held where it is taken."""
        unless(self.within(self.words[at], 8) == 0, 20)

    def first_bucket(self, cell):
        self.within(cell, 255)
        return self.within(self.words[FIRST + cell], 512)

    def needed_bucket(self, cell):
        bucket = self.first_bucket(cell)
        need(bucket != NO_BUCKET)
        return bucket

    def count_of(self, bucket):
        return self.within(self.words[COUNT + bucket], 4)

    def slot_of(self, bucket, slot):
        return 4 * self.within(bucket, 511) + self.within(slot, 3)

    def draw(self):
        stamp = self.words[CLOCK] + 1
        need(stamp <= LAST_STAMP)
        self.word(CLOCK, stamp)
        return stamp

    def put_tuple(self, at, carrier, x, y, mark, stamp):
        self.word(CARRIERS + at, carrier)
        self.word(XS + at, x)
        self.word(YS + at, y)
        self.word(MARKS + at, mark)
        self.put(self.times, at, stamp)

    def cell_of(self, x, y):
        need(x <= 16383 and y <= 16383)
        return y // 1024 * 16 + x // 1024

    # ---- the directory

    def search(self, carrier):
        """(found, place): the carrier's place, an empty place, or (False, None) where the search comes round."""
        start = carrier * 2654435769 % 4294967296 // 8388608
        for k in range(512):
            at = (start + k) % 512
            here = self.words[KNOWN + at]
            if here == 0:
                return False, at
            if here == carrier:
                return True, at
        return False, None

    def entry(self, carrier):
        found, at = self.search(carrier)
        need(found)
        return at

    # ---- reset

    def reset(self):
        words = self.words
        for i in range(WORDS):
            words[i] = 0
        for cell in range(256):
            words[FIRST + cell] = NO_BUCKET
        for i in range(512):
            words[NEXT + i] = NO_BUCKET
            words[CURRENT + i] = words[FORMER + i] = NO_PLACE
            words[POOL + i] = i
        words[HEIGHT] = 512
        for lanes, n in ((self.times, TIMES), (self.updaters, 80), (self.queries, 4 * QUERY)):
            for i in range(n):
                lanes[i] = 0
        return 0

    # ---- reports

    def update_start(self, lane, carrier, x, y, mark):
        return self.call(self.start_update, lane, carrier, x, y, mark)

    def start_update(self, lane, carrier, x, y, mark):
        unless(lane <= 7, 1)
        stage = self.updaters[10 * lane + STAGE]
        need(stage <= 14)
        unless(stage == 0, 2)
        unless(carrier != 0, 4)
        unless(x <= 16383 and y <= 16383, 5)
        unless(mark <= 9, 31)
        found, at = self.search(carrier)
        if not found:
            known = sum(1 for i in range(512) if self.words[KNOWN + i] != 0)
            unless(known < 256, 7)
        unless(self.words[CLOCK] < SPENT, 8)
        if not found:
            need(at is not None)
            self.word(KNOWN + at, carrier)
            self.word(LOCKS + at, 0)
            self.word(CURRENT + at, NO_PLACE)
            self.word(FORMER + at, NO_PLACE)
        for i, value in enumerate((carrier, x, y, mark, 1, 0, 0, 0, 0, 0)):
            self.put(self.updaters, 10 * lane + i, value)
        return 0

    def update_step(self, lane):
        return self.call(self.step_update, lane)

    def step_update(self, lane):
        unless(lane <= 7, 1)
        u = list(self.updaters[10 * lane : 10 * lane + 10])
        need(u[STAGE] <= 14)
        unless(u[STAGE] != 0, 3)
        return self.STAGES[u[STAGE]](self, lane, u)

    def goes(self, lane, stage, place=(0, 0, 0), moved=0, unlinked=0, number=0):
        """The lane goes on to a stage with its data; what the stage does not carry is 0."""
        for i, value in enumerate((stage, *place, moved, unlinked)):
            self.put(self.updaters, 10 * lane + STAGE + i, value)
        return number

    def stage_1(self, lane, u):
        at = self.entry(u[CARRIER])
        self.lock_at(LOCKS + at)
        former = self.within(self.words[FORMER + at], NO_PLACE)
        self.word(LOCKS + at, lane + 1)
        if former == NO_PLACE:
            return self.goes(lane, 8)
        return self.goes(lane, 2, (former // 2048, former // 4 % 512, former % 4))

    def stage_2(self, lane, u):
        self.lock_at(CELLS + self.within(u[CELL], 255))
        self.word(CELLS + u[CELL], lane + 1)
        return self.goes(lane, 3, u[CELL:MOVED])

    def last_tuple(self, cell):
        """The bucket that is first in a cell, and the slot of its last tuple."""
        bucket = self.needed_bucket(cell)
        count = self.count_of(bucket)
        need(count > 0)
        return bucket, 4 * bucket + count - 1

    def stage_3(self, lane, u):
        last = self.words[CARRIERS + self.last_tuple(u[CELL])[1]]
        if last != u[CARRIER]:
            other = self.entry(last)
            if self.within(self.words[LOCKS + other], 8) != 0:
                own = self.entry(u[CARRIER])
                self.word(CELLS + u[CELL], 0)
                self.word(LOCKS + own, 0)
                return self.goes(lane, 1, number=21)
            self.word(LOCKS + other, lane + 1)
        return self.goes(lane, 4, u[CELL:MOVED], last)

    def stage_4(self, lane, u):
        last = self.last_tuple(u[CELL])[1]
        to = self.slot_of(u[BUCKET], u[SLOT])
        words = self.words
        self.put_tuple(to, words[CARRIERS + last], words[XS + last], words[YS + last], words[MARKS + last], self.times[last])
        return self.goes(lane, 5, u[CELL:MOVED], u[MOVED])

    def stage_5(self, lane, u):
        bucket = self.last_tuple(u[CELL])[0]
        count = self.words[COUNT + bucket] - 1
        self.word(COUNT + bucket, count)
        if count > 0:
            return self.goes(lane, 7, u[CELL:MOVED], u[MOVED])
        self.word(FIRST + u[CELL], self.within(self.words[NEXT + bucket], 512))
        return self.goes(lane, 6, u[CELL:MOVED], u[MOVED], bucket)

    def stage_6(self, lane, u):
        bucket = self.within(u[UNLINKED], 511)
        unless(self.within(self.words[READERS + bucket], 4) == 0, 20)
        height = self.words[HEIGHT]
        need(height < 512)
        self.word(POOL + height, bucket)
        self.word(HEIGHT, height + 1)
        return self.goes(lane, 7, u[CELL:MOVED], u[MOVED])

    def stage_7(self, lane, u):
        self.word(FORMER + self.entry(u[CARRIER]), NO_PLACE)
        self.within(u[CELL], 255)
        if u[MOVED] != u[CARRIER]:
            slot = self.slot_of(u[BUCKET], u[SLOT])
            stamp = self.times[slot]
            need(stamp != 0 and stamp >= -LAST_STAMP)
            other = self.entry(u[MOVED])
            self.word((FORMER if stamp < 0 else CURRENT) + other, 2048 * u[CELL] + slot)
            self.word(LOCKS + other, 0)
        self.word(CELLS + u[CELL], 0)
        return self.goes(lane, 8)

    def stage_8(self, lane, u):
        cell = self.cell_of(u[X], u[Y])
        place = self.within(self.words[CURRENT + self.entry(u[CARRIER])], NO_PLACE)
        if place != NO_PLACE and place // 2048 == cell:
            self.put_tuple(place % 2048, u[CARRIER], u[X], u[Y], u[MARK], self.draw())
            return self.goes(lane, 14)
        self.lock_at(CELLS + cell)
        self.word(CELLS + cell, lane + 1)
        return self.goes(lane, 9)

    def stage_9(self, lane, u):
        cell = self.cell_of(u[X], u[Y])
        first = self.first_bucket(cell)
        if first == NO_BUCKET or self.count_of(first) == 4:
            height = self.within(self.words[HEIGHT], 512)
            need(height > 0)
            new = self.within(self.words[POOL + height - 1], 511)
            self.word(HEIGHT, height - 1)
            self.word(COUNT + new, 0)
            self.word(NEXT + new, first)
            self.word(FIRST + cell, new)
        return self.goes(lane, 10)

    def stage_10(self, lane, u):
        cell = self.cell_of(u[X], u[Y])
        bucket = self.needed_bucket(cell)
        count = self.words[COUNT + bucket]
        self.put_tuple(self.slot_of(bucket, count), u[CARRIER], u[X], u[Y], u[MARK], self.draw())
        return self.goes(lane, 11, (cell, bucket, count))

    def stage_11(self, lane, u):
        at = COUNT + self.within(u[BUCKET], 511)
        self.word(at, self.within(self.words[at] + 1, 4))
        return self.goes(lane, 12, u[CELL:MOVED])

    def stage_12(self, lane, u):
        at = self.entry(u[CARRIER])
        old = self.within(self.words[CURRENT + at], NO_PLACE)
        new = 2048 * self.within(u[CELL], 255) + self.slot_of(u[BUCKET], u[SLOT])
        self.word(FORMER + at, old)
        self.word(CURRENT + at, new)
        self.word(CELLS + u[CELL], 0)
        if old == NO_PLACE:
            return self.goes(lane, 14)
        return self.goes(lane, 13, (old // 2048, old // 4 % 512, old % 4))

    def stage_13(self, lane, u):
        slot = self.slot_of(u[BUCKET], u[SLOT])
        self.put(self.times, slot, -self.draw())
        return self.goes(lane, 14)

    def stage_14(self, lane, u):
        self.word(LOCKS + self.entry(u[CARRIER]), 0)
        return self.goes(lane, 0, number=22)

    STAGES = (None, stage_1, stage_2, stage_3, stage_4, stage_5, stage_6, stage_7)
    STAGES += (stage_8, stage_9, stage_10, stage_11, stage_12, stage_13, stage_14)

    # ---- sweeps

    def lane_of(self, lane):
        """The numbers of a query lane, which have to name a stage and a kind of question."""
        unless(lane <= 3, 1)
        q = list(self.queries[QUERY * lane : QUERY * lane + QUERY])
        need(q[Q_STAGE] <= 3 and q[Q_KIND] <= 2)
        return q

    def query_start(self, lane, kind, x0, y0, x1, y1, radius):
        return self.call(self.start_query, lane, kind, x0, y0, x1, y1, radius)

    def start_query(self, lane, kind, x0, y0, x1, y1, radius):
        stage = self.lane_of(lane)[Q_STAGE]
        need(kind <= 2)
        unless(stage == IDLE, 2)
        unless(max(x0, y0, x1, y1) <= 16383, 5)
        unless(x0 <= x1 and y0 <= y1, 6)
        unless(kind == CENTRE or radius <= 511, 32)
        unless(self.words[CLOCK] < SPENT, 8)
        q = [kind, x0, y0, x1, y1, radius, 0, 0, 0, ENTER, 0, 0, 0]
        q[Q_STAMP], q[Q_CELL] = self.draw(), self.walk(q)[0]
        for i, value in enumerate(q):
            self.put(self.queries, QUERY * lane + i, value)
        return 0

    def query_step(self, lane):
        return self.call(self.step_query, lane)

    def step_query(self, lane):
        q = self.lane_of(lane)
        unless(q[Q_STAGE] != IDLE, 3)
        unless(q[Q_STAGE] != FINISHED, 9)
        if q[Q_STAGE] == ENTER:
            return self.enter(lane, q)
        return self.read(lane, q) if q[Q_LEFT] > 0 else self.leave(lane, q)

    def walks(self, lane, q, stage, cell=0, bucket=0, left=0):
        """The sweep has made a step and goes on to what comes next."""
        steps = self.within(q[Q_STEPS] + 1, ALL)
        for i, value in enumerate((q[Q_HITS], steps, stage, cell, bucket, left)):
            self.put(self.queries, QUERY * lane + Q_HITS + i, value)
        return 22 if stage == FINISHED else 0

    def in_range(self, q):
        """A question as a start would accept it."""
        need(max(q[Q_X0 : Q_Y1 + 1]) <= 16383 and q[Q_X0] <= q[Q_X1] and q[Q_Y0] <= q[Q_Y1])
        need(q[Q_KIND] == CENTRE or q[Q_RADIUS] <= 511)

    def walk(self, q):
        """The cells of the walk, by row and then by column: T's rectangle is grown by the radius and cut."""
        self.in_range(q)
        grown = q[Q_RADIUS] if q[Q_KIND] == TOUCHING else 0
        x0, y0 = (max(side - grown, 0) // 1024 for side in q[Q_X0 : Q_X0 + 2])
        x1, y1 = (min(side + grown, 16383) // 1024 for side in q[Q_X1 : Q_X1 + 2])
        return [16 * row + column for row in range(y0, y1 + 1) for column in range(x0, x1 + 1)]

    def satisfies(self, q, x, y):
        """Whether a place satisfies the question of a lane."""
        x0, y0, x1, y1, radius = q[Q_X0 : Q_RADIUS + 1]
        if q[Q_KIND] == TOUCHING:
            dx, dy = max(x0 - x, 0, x - x1), max(y0 - y, 0, y - y1)
            return dx * dx + dy * dy <= radius * radius
        if q[Q_KIND] == WITHIN:
            return min(x - x0, x1 - x, y - y0, y1 - y) >= radius
        return x0 <= x <= x1 and y0 <= y <= y1

    def cell_done(self, lane, q, walk):
        at = walk.index(q[Q_CELL]) + 1
        return self.walks(lane, q, ENTER, walk[at]) if at < len(walk) else self.walks(lane, q, FINISHED)

    def add_reader(self, bucket):
        self.word(READERS + bucket, self.within(self.words[READERS + bucket] + 1, 4))
        return self.count_of(bucket)

    def take_reader(self, bucket):
        readers = self.within(self.words[READERS + bucket], 4)
        need(readers > 0)
        self.word(READERS + bucket, readers - 1)

    def enter(self, lane, q):
        walk = self.walk(q)
        need(q[Q_CELL] in walk)
        self.lock_at(CELLS + q[Q_CELL])
        bucket = self.first_bucket(q[Q_CELL])
        if bucket == NO_BUCKET:
            return self.cell_done(lane, q, walk)
        return self.walks(lane, q, READ, q[Q_CELL], bucket, self.add_reader(bucket))

    def leave(self, lane, q):
        bucket = self.within(q[Q_BUCKET], 511)
        following = self.within(self.words[NEXT + bucket], 512)
        if following != NO_BUCKET:
            count = self.add_reader(following)
            self.take_reader(bucket)
            return self.walks(lane, q, READ, q[Q_CELL], following, count)
        self.take_reader(bucket)
        walk = self.walk(q)
        need(q[Q_CELL] in walk)
        return self.cell_done(lane, q, walk)

    def read(self, lane, q):
        self.in_range(q)
        slot = self.slot_of(q[Q_BUCKET], q[Q_LEFT] - 1)
        stamp = self.times[slot]
        need(stamp != 0 and stamp >= -LAST_STAMP)
        carrier, x, y, mark = (self.words[column + slot] for column in (CARRIERS, XS, YS, MARKS))
        if self.satisfies(q, x, y):
            if stamp < 0:
                need(0 < q[Q_STAMP] <= LAST_STAMP)
            if stamp > 0 or -stamp > q[Q_STAMP]:
                self.note(lane, q, carrier, x, y, mark, stamp > 0)
        return self.walks(lane, q, READ, q[Q_CELL], q[Q_BUCKET], q[Q_LEFT] - 1)

    def note(self, lane, q, carrier, x, y, mark, replaces):
        """A tuple that belongs on the list: added, or put over the carrier's entry if it is a current one."""
        size = self.within(q[Q_HITS], 256)
        at = 0
        while at < size and self.words[HITS + 256 * lane + at] != carrier:
            at += 1
        if at < size and not replaces:
            return
        need(at < 256)
        self.word(HITS + 256 * lane + at, carrier)
        self.word(HIT_XS + 256 * lane + at, x)
        self.word(HIT_YS + 256 * lane + at, y)
        self.word(HIT_MARKS + 256 * lane + at, mark)
        q[Q_HITS] = max(size, at + 1)

    def finished(self, lane):
        """The numbers of a lane whose sweep has finished."""
        q = self.lane_of(lane)
        unless(q[Q_STAGE] != IDLE, 3)
        unless(q[Q_STAGE] == FINISHED, 10)
        return q

    def reading(self, lane, out, lent):
        """(number, steps, filled): writes into `out`, a list of which `lent` numbers are lent."""
        self.handed = (0, 0)
        number = self.call(self.read_list, lane, out, lent)
        return (number, *self.handed)

    def read_list(self, lane, out, lent):
        q = self.finished(lane)
        unless(4 * q[Q_HITS] <= lent, 11)
        for i in range(self.within(q[Q_HITS], 256)):
            for k, column in enumerate((HITS, HIT_XS, HIT_YS, HIT_MARKS)):
                self.put(out, 4 * i + k, self.words[column + 256 * lane + i])
        self.handed = (q[Q_STEPS], 4 * q[Q_HITS])
        return 0

    def clear(self, lane):
        return self.call(self.clear_lane, lane)

    def clear_lane(self, lane):
        self.finished(lane)
        for i in (Q_STAGE, Q_CELL, Q_BUCKET, Q_LEFT):
            self.put(self.queries, QUERY * lane + i, 0)
        return 0

    def collect(self, lane, out, lent):
        """A reading and then, if it is accepted, the clearing."""
        handed = self.reading(lane, out, lent)
        return handed if handed[0] else (self.clear(lane), *handed[1:])

    # ---- winding the clock back

    def rewind(self):
        return self.call(self.wind_back)

    def wind_back(self):
        stages = [self.updaters[10 * lane + STAGE] for lane in range(8)]
        scans = [self.queries[QUERY * lane + Q_STAGE] for lane in range(4)]
        need(max(stages) <= 14 and max(scans) <= 3)
        unless(not any(stages) and not any(scans), 30)
        for i, stamp in enumerate(self.times):
            self.put(self.times, i, (stamp > 0) - (stamp < 0))
        self.word(CLOCK, min(self.words[CLOCK], 1))
        return 0

    # ---- runs

    def run(self, step, lane, budget):
        """(number, made): up to `budget` steps, ended by the first number that is not 0."""
        made = number = 0
        while number == 0 and made < budget:
            number = step(lane)
            made += number in (0, 21, 22)
        return number, made
