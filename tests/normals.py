#!/usr/bin/env python3
# Normals of very large and very small surfaces (document 02, M-104), from exact fractions: every operation of document 01's triangle cast
# and of normalising is computed as a fraction and rounded once here, and `probe` is held to the results, bit by bit.
# usage: tests/normals.py PROBE [TRIANGLES [SEED]]   (default 4000 1)
import math, random, struct, subprocess, sys
from fractions import Fraction

TWO = Fraction(2)

def rounded(exact, sign):
    """The float nearest to a fraction; a zero takes the sign."""
    if exact == 0:
        return math.copysign(0.0, sign)
    try:
        value = exact.numerator / exact.denominator  # rounded once, ties to even
    except OverflowError:
        return math.inf if exact > 0 else -math.inf
    return math.copysign(value, 1 if exact > 0 else -1)

def finite(*numbers):
    return all(math.isfinite(number) for number in numbers)

def mul(a, b):
    if not finite(a, b):
        return a * b
    return rounded(Fraction(a) * Fraction(b), math.copysign(1, a) * math.copysign(1, b))

def add(a, b):
    if not finite(a, b):
        return a + b
    both_negative = math.copysign(1, a) < 0 and math.copysign(1, b) < 0
    return rounded(Fraction(a) + Fraction(b), -1 if both_negative else 1)

def sub(a, b):
    return add(a, -b)

def div(a, b):
    if not finite(a, b):
        return a / b
    if b == 0:
        return math.nan if a == 0 or math.isnan(a) else math.copysign(math.inf, a) * math.copysign(1, b)
    return rounded(Fraction(a) / Fraction(b), math.copysign(1, a) * math.copysign(1, b))

def root(x):
    """The float nearest to the root of a positive finite number: no float's middle lies between."""
    r = math.sqrt(x)
    for c in (math.nextafter(r, 0), r, math.nextafter(r, math.inf)):
        low, high = (Fraction(math.nextafter(c, to)) for to in (0, math.inf))
        if (low + Fraction(c)) ** 2 < 4 * Fraction(x) < (Fraction(c) + high) ** 2:
            return c
    raise AssertionError(x)

def dot(v, w):
    return add(add(mul(v[0], w[0]), mul(v[1], w[1])), mul(v[2], w[2]))

def cross(v, w):
    return [sub(mul(v[i], w[j]), mul(v[j], w[i])) for i, j in ((1, 2), (2, 0), (0, 1))]

def normalised(v):
    """A unit vector and the way it was found, or none."""
    square = dot(v, v)
    if finite(square) and Fraction(square) >= TWO ** -1022:
        return [div(c, root(square)) for c in v], 'as it is'
    if not finite(*v) or not any(v):
        return None, 'none'
    largest = max(abs(Fraction(c)) for c in v)
    e = 0
    while largest >= TWO ** (e + 1):
        e += 1
    while largest < TWO ** e:
        e -= 1
    exact = [Fraction(c) / TWO ** e for c in v]
    scaled = [rounded(c, math.copysign(1, x)) for c, x in zip(exact, v)]
    ways = ['scaled down' if e > 0 else 'scaled up']
    ways += ['largest subnormal'] if largest < TWO ** -1022 else []
    for c, s in zip(exact, scaled):
        if c and s == 0:
            ways.append('a component vanishes')
        elif c != Fraction(s):
            ways.append('a component rounds')
        if c and (c * TWO ** 1075).denominator == 1 and (c * TWO ** 1074).denominator != 1:
            ways.append('a tie')
    assert 1 <= max(abs(c) for c in scaled) < 2, v
    return [div(c, root(dot(scaled, scaled))) for c in scaled], ', '.join(sorted(set(ways)))

def triangle(origin, direction, maximum, corners):
    """Document 01's triangle cast, and the way its normal was found."""
    first = corners[0]
    a, b, offset = ([sub(p, q) for p, q in zip(v, first)] for v in (corners[1], corners[2], origin))
    p = cross(direction, b)
    determinant = dot(a, p)
    if not finite(determinant):
        return ['refused', '6'], ''
    scale = max([1.0] + [abs(c) for c in a + b])
    if abs(determinant) <= mul(mul(scale, 2.0 ** -52), 32.0):
        return ['none'], ''
    inverse = div(1.0, determinant)
    u = mul(dot(offset, p), inverse)
    q = cross(offset, a)
    v = mul(dot(direction, q), inverse)
    if not 0 <= u <= 1 or v < 0 or add(u, v) > 1:
        return ['none'], ''
    distance = mul(dot(b, q), inverse)
    if math.isnan(distance):
        return None, ''
    if distance < 0 or distance > maximum:
        return ['none'], ''
    unit, way = normalised(cross(a, b))
    if unit is None:
        return ['refused', '7'], way
    if dot(direction, unit) > 0:
        unit = [-c for c in unit]
    return ['hit', *unit, distance], way

def record(kind, origin, direction, maximum, shape):
    body = struct.pack('>BB7d', 1, kind, *origin, *direction, maximum) + shape
    return struct.pack('>I', len(body)) + body

def triangles(random, count):
    """Triangles whose crosses are large, their other components anything; the ray meets them well inside."""
    directions = [(0, 0, -1), (0, 0, 1), (0.6, 0, -0.8), (0, -0.6, 0.8)]
    power = lambda low, high: random.choice((-1, 1)) * random.uniform(1, 2) * 2.0 ** random.randint(low, high)
    while count:
        if random.random() < 0.05:
            # a cross with an infinite component beside a finite determinant, hit where the ray starts
            x, y, p = power(600, 620), power(600, 620), power(-20, -10)
            side = random.choice((-1.0, 1.0))
            yield [x / 4, y * 2.0 ** -400, p / 4], [side, 0.0, 0.0], abs(x), [[0.0] * 3, [x, 0.0, p], [0.0, y, 0.0]]
            count -= 1
        high = random.choice((20, 200, 270, 500))
        x, y = power(high - 15, high), power(high - 15, high)
        if random.random() < 0.3:
            x, y = math.copysign(2.0 ** high, x), math.copysign(2.0 ** high, y)
        halves = lambda: random.randrange(1, 64, 2) * 2.0 ** (high - 1075)
        low = lambda: random.choice((0.0, -0.0, power(-1074, -600), power(-600, 0), power(0, high), 2.0 ** -1074 * random.randint(1, 9), halves()))
        corners = [[0.0, 0.0, 0.0], [x, low(), low()], [low(), y, low()]]
        if random.random() < 0.1:
            corners[2] = list(corners[1])
        inside = [(p + q) / 4 for p, q in zip(corners[1], corners[2])]
        direction = [float(c) for c in random.choice(directions)]
        back = random.choice((1.0, 8.0, 2.0 ** (high // 2)))
        origin = [c - back * d for c, d in zip(inside, direction)]
        if finite(*origin, *corners[1], *corners[2]):
            yield origin, direction, back * 4, corners
            count -= 1

def grids(random, count):
    """2 by 2 by 2 nodes whose values are exactly linear, in units that can be halved, and next to 0, so that the ray hits at its entry
    and the gradient is known."""
    for _ in range(count):
        unit = 2.0 ** random.choice((-1070, -1066, -1030, -900, -600, -530))
        gradient = [random.choice((0, 1, 3, random.randrange(2 ** random.randint(1, 49)))) * random.choice((-1, 1)) * unit for _ in range(3)]
        values = [x * gradient[0] + y * gradient[1] + z * gradient[2] for z in (0, 1) for y in (0, 1) for x in (0, 1)]
        yield gradient, values

def main():
    probe, count, seed = (sys.argv[1:] + ['4000', '1'][len(sys.argv) - 2:])[:3]
    count, seed = int(count), int(seed)
    choose = random.Random(seed)
    records, expected, ways = [], [], {}
    down = [0.0, 0.0, -1.0]
    for origin, direction, maximum, corners in triangles(choose, count):
        answer, way = triangle(origin, direction, maximum, corners)
        if answer is None:
            continue
        records.append(record(2, origin, direction, maximum, struct.pack('>9d', *sum(corners, []))))
        expected.append(answer)
        way = 'refused 7' if answer == ['refused', '7'] else way
        ways[way] = ways.get(way, 0) + 1
    for gradient, values in grids(choose, count // 4):
        unit, way = normalised(gradient)
        shape = struct.pack('>3I6d8d', 2, 2, 2, 0, 0, 0, 1, 1, 1, *values)
        records.append(record(5, [0.5, 0.5, 2.0], down, 5.0, shape))
        expected.append(['refused', '8'] if unit is None else ['hit', *unit, 1.0])
        ways['grid: ' + way] = ways.get('grid: ' + way, 0) + 1
    lines = subprocess.run([probe], input=b''.join(records), stdout=subprocess.PIPE, check=True).stdout.decode().split('\n')[:-1]
    assert len(lines) == len(expected), (len(lines), len(expected))
    number = lambda word: struct.unpack('>d', bytes.fromhex(word))[0]
    for i, (line, answer) in enumerate(zip(lines, expected)):
        ours = line.split(' ')[1:]
        if ours[0] == 'hit':
            ours = ['hit', *(number(word) for word in ours[1:])]
        bits = lambda words: [struct.pack('>d', w) if isinstance(w, float) else w for w in words]
        if bits(ours) != bits(answer):
            sys.exit(f'record {i + 1}: {ours} and not {answer}: {records[i].hex()}')
    for way, met in sorted(ways.items()):
        print(f'{met:6} {way or "no normal asked"}')
    needed = ['refused 7', 'scaled down', 'a component vanishes', 'a component rounds', 'a tie', 'largest subnormal', 'scaled up', 'as it is', 'none']
    missing = [way for way in needed if not any(way in met for met in ways)]
    if missing:
        sys.exit(f'never met: {missing}')
    print(f'normals: {len(records)} tests passed')

main()
