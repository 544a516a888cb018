"""Lists in the trial's language: `script(seed, lines)` gives one in one of twelve styles, by seed % 12.

Style 0 has lines of no form, 1 calls that are refused by number, 3 more senders than the store holds, 4 few senders that send
most, 5 and 6 many cuts, 7 few cuts, 8 stamps that go back, 9 a stamp at its end; the others are mixed. All have later starts,
unbounded relays, reports, and stamps that jump past the limits of the Shedder (500, 2,000, 8,000 and 1,400,000 ms).
"""
import ipaddress
import random

MOST = 2 ** 40
STAMP = 2 ** 53 - 1
U64 = 2 ** 64 - 1
CAUSES = ['receiver-ceiling', 'over-share', 'relay-rate']
STEPS = [0, 1, 1, 3, 10, 50, 100, 400, 1000, 2000, 9000]
SCALES = [.05, .3, 1, 1, 2, 10]
JUMPS = [1999, 2000, 2001, 7999, 8000, 8001, 1399999, 1400000, 499, 500, 501, 200000, 1500000, 10 ** 9]
# the part of cuts among the calls, where a style has its own
CUTS = {5: .5, 6: .3, 7: .02}

NO_FORM = [
    b'', b' ', b'J', b'J no-address 1 1', b'J no-address 1 1 1 1', b'J no-address 01 1 1', b'J  no-address 1 1 1', b' P', b'P ', b'p',
    b'R 1 1 1', b'R 1 1 1 18446744073709551616', b'R -1 1 1 1', b'R +1 1 1 1', b'R 1 1 1 1 1', b'J v4:256.0.0.0/16 1 1 1',
    b'J v4:01.0.0.0/16 1 1 1', b'J v6:2001:0::/32 1 1 1', b'J v6:2001:0db8::/32 1 1 1', b'J v6:2001:DB8::/32 1 1 1', b'J key:00 1 1 1',
    b'J key:' + b'0' * 63 + b'G 1 1 1', b'J key:' + b'A' * 64 + b' 1 1 1', b'C no-address none 1 1', b'C no-address over-share 1',
    b'C no-address Over-share 1 1', b'J no-address 1 1 1\r', b'\xff\xfe', b'J no-address 1 1 \xff', b'x' * 200, b'x' * 201, b'x' * 5000,
    b'J no-address 18446744073709551616 0 0', b'C \xff over-share 1 1', b'C no-address \xff 1 1', b'J\tno-address 1 1 1',
    b'J no-address 1 1 1\0', b'', b'R', b'C', b'J v6:+1:1::/32 1 1 1', b'J no-address ' + b'0' * 180 + b' 1 1', b'P' + b' ' * 199,
    b'P' + b' ' * 200,
]
# texts of IPv6 prefixes that RFC 5952 does not write
V6_NO_FORM = [
    'v6:2001:0::/32', 'v6:0:0::/32', 'v6:0::/32', 'v6:::db8:0:0:0:0:0:0/32', 'v6::db8::/32', 'v6::::/32', 'v6::/32', 'v6:::0/32', 'v6:::/31',
    'v6:::/032', 'v6:2001:DB8::/32', 'v6:2001:0db8::/32', 'v6:02001::/32', 'v6:2001:db8::1/32', 'v6:2001:db8:0:0:0:0:0:0/32',
    'v6:2001:db8:0::/32', 'v6:12001::/32', 'v6:2001:10db8::/32', 'v6:2001:db8::', 'v6:2001:db8/32', 'v6:2001:db8::/32/32', 'V6:2001:db8::/32',
]
REFUSED = [
    b'R 0 1 0 0', b'R 1 0 0 0', b'R 1099511627777 1 0 0', b'R 1 1099511627777 0 0', b'R 18446744073709551615 1 0 0',
    b'R 1 18446744073709551615 0 0', b'R 18446744073709551614 18446744073709551614 0 0', b'J no-address 1099511627777 0 0',
    b'J no-address 0 1099511627777 0', b'J no-address 0 0 9007199254740992', b'J no-address 1099511627777 0 9007199254740992',
    b'J overflow 18446744073709551615 18446744073709551615 18446744073709551615', b'C no-address over-share 1099511627777 0',
    b'C overflow receiver-ceiling 0 1099511627777',
]


def v6_label(prefix):
    return 'v6:%s/32' % ipaddress.IPv6Address(prefix << 96).compressed


def label(r):
    kind = r.random()
    if kind < 0.4:
        return 'v4:%d.%d.0.0/16' % (r.randrange(256), r.randrange(256))
    if kind < 0.7:
        first = r.choice([0, 1, 0x2001, r.randrange(65536)])
        second = r.choice([0, 0xdb8, r.randrange(65536)])
        return v6_label(first << 16 | second)
    return 'key:' + r.randbytes(32).hex()


def number(r, most):
    """A number of any size up to most."""
    bits = r.uniform(0, most.bit_length())
    return min(most, int(2 ** bits) - (1 if r.random() < .5 else 0))


def rate(r):
    return r.choice([1, 2, 3, 7, 10, 100, 999, 1000, 12345, 10 ** 6, MOST - 1, MOST, number(r, MOST) or 1, number(r, MOST) or 1])


def ceiling(r):
    return r.choice([0, 0, 1, 100, MOST, MOST + 1, U64, number(r, U64)])


class Script:
    """The list as it grows: the relay's rates, the stamp, how fast stamps rise and how large costs are."""

    def __init__(self, seed):
        r = self.r = random.Random(seed)
        self.style = seed % 12
        self.out = []
        if r.random() < .3:
            self.out += [b'J no-address 1 1 1', b'P', b'C no-address over-share 1 1', r.choice(NO_FORM)]
        senders = r.choice([1, 2, 5, 20, 60, 80, 200, 300, 400, 600])
        if self.style == 3:
            senders = r.choice([300, 600, 2000])
        self.pool = [label(r) for _ in range(senders)]
        self.start()
        self.t = r.choice([0, 0, 499, 1000, 10 ** 12, STAMP - 10 ** 6, STAMP - 5])
        self.step = r.choice(STEPS)
        self.scale = r.choice(SCALES)

    def start(self):
        r = self.r
        unbounded = r.random() < .06
        self.rates = [U64, U64] if unbounded else [rate(r), rate(r)]
        self.out.append(b'R %d %d %d %d' % (*self.rates, ceiling(r), ceiling(r)))

    def unit(self, i):
        r, pool = self.r, self.pool
        kind = r.random()
        unit = 'overflow' if kind < 0.02 else 'no-address' if kind < 0.05 else r.choice(pool)
        if self.style == 3 and r.random() < .8:
            unit = pool[(i * 7) % len(pool)]
        if self.style == 4:
            unit = pool[min(int(r.expovariate(.2)), len(pool) - 1)]
        return unit.encode()

    def cost(self, rate):
        r = self.r
        kind = r.random()
        held = min(rate, MOST)
        if kind < .08:
            return 0
        if kind < .12:
            return r.choice([1, 2, MOST, MOST - 1])
        if kind < .2:
            return min(MOST, r.choice([held, 2 * held, 4 * held, 4 * held + 1, max(held - 1, 0), held // 2]))
        if kind < .25:
            return number(r, MOST)
        x = held * self.scale / max(1, min(len(self.pool), 50)) * r.expovariate(1) * max(self.step, 1) / 1000 * 10
        return min(MOST, int(x))

    def stamp(self):
        r = self.r
        rise = r.choice([0, self.step, self.step, r.randrange(self.step + 1), int(r.expovariate(1) * self.step)])
        if self.style == 8 and r.random() < .1:
            rise = -r.randrange(10000)
        self.t = max(0, self.t + rise)
        stamp = self.t
        if r.random() < .03:
            stamp = max(0, self.t - r.choice([1, 500, 10 ** 6, self.t]))
        if self.style == 9 and r.random() < .002:
            stamp = STAMP
        self.t = min(self.t, STAMP)
        return min(stamp, STAMP)

    def line(self, i):
        r = self.r
        kind = r.random()
        if self.style in (0, 1) and kind < .1:
            self.out.append(r.choice((NO_FORM, REFUSED)[self.style]))
            return
        if kind < .0015:
            self.start()
            self.t = r.choice([0, self.t, 10 ** 9])
            return
        if kind < .012:
            self.out.append(b'P')
            return
        if kind < .014:
            self.step = r.choice(STEPS)
        if kind < .016:
            self.scale = r.choice(SCALES)
        if kind < .02:
            self.t += r.choice(JUMPS)
        unit = self.unit(i)
        if r.random() < CUTS.get(self.style, .08):
            cause = r.choice(CAUSES) if r.random() < .5 else CAUSES[0]
            self.out.append(b'C %s %s %d %d' % (unit, cause.encode(), self.cost(self.rates[0]), self.cost(self.rates[1])))
            return
        stamp = self.stamp()
        self.out.append(b'J %s %d %d %d' % (unit, self.cost(self.rates[0]), self.cost(self.rates[1]), stamp))


def script(seed, lines):
    s = Script(seed)
    for i in range(lines):
        s.line(i)
    s.out.append(b'P')
    return b'\n'.join(s.out) + (b'\n' if s.r.random() < .9 else b'')
